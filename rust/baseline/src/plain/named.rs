//! Which pages the entries name: whether a state is sound, and each block's valid
//! pages.
//!
//! Each page has a bit, which an entry that names it sets; nothing is asked meanwhile.
//! The entries are right if the written pages have as many bits set as there are entries
//! that name a page: one that names no written page, or one that another names too, has
//! set none of these.

use hedjosur_model::plain::NOT_WRITTEN;

use super::table::{Entry, Table};
use crate::blocks::counts_fit;
use crate::numbers::Numbers;

/// How many entries are looked at at once.
const AT_ONCE: usize = 16;

/// For each bit of a byte, the byte that has it alone: faster than a shift.
static BITS: [u8; 8] = [1, 2, 4, 8, 16, 32, 64, 128];

/// Whether a state is sound; tells the valid pages of each block, by its number, even
/// where it isn't. Few pages have their bits in few bytes, for all of them are cleared.
pub(super) fn is_sound(device: &Numbers, table: &Table, valid: impl FnMut(usize, u16)) -> bool {
    counts_fit(device, table.counts)
        && match device.pages().next_power_of_two().ilog2() {
            ..=10 => has_sound_entries::<{ 0x80 + AT_ONCE }>(device, table, valid),
            11..=12 => has_sound_entries::<{ 0x200 + AT_ONCE }>(device, table, valid),
            13..=14 => has_sound_entries::<{ 0x800 + AT_ONCE }>(device, table, valid),
            15..=16 => has_sound_entries::<{ 0x2000 + AT_ONCE }>(device, table, valid),
            17..=18 => has_sound_entries::<{ 0x8000 + AT_ONCE }>(device, table, valid),
            _ => has_sound_entries::<{ 0x2_0000 + AT_ONCE }>(device, table, valid),
        }
}

/// Whether the entries are right, where no count exceeds B.
fn has_sound_entries<const BYTES: usize>(
    device: &Numbers,
    table: &Table,
    mut valid: impl FnMut(usize, u16),
) -> bool {
    let mut named = Named([0; BYTES]);
    let naming = named.mark(table.entries);
    let block_pages = device.block_pages as usize;
    let mut all = 0;
    for (block, &count) in table.counts.iter().enumerate() {
        let pages = named.count(block * block_pages, u16::from_le_bytes(count).into());
        valid(block, pages as u16);
        all += pages;
    }
    all as usize == naming
}

/// A bit for each page, eight to a byte: entries that name neighbours wait less for each
/// other than with larger words. The last bytes, as many as entries are looked at at once,
/// are for entries that name no page: each has a byte of its own.
struct Named<const BYTES: usize>([u8; BYTES]);

impl<const BYTES: usize> Named<BYTES> {
    /// Where the last bytes begin.
    const END: usize = BYTES - AT_ONCE;

    /// Sets the bits of the pages that entries name; answers how many name one, or a
    /// number that is no page's.
    fn mark(&mut self, entries: &[Entry]) -> usize {
        let (parts, rest) = entries.as_chunks::<AT_ONCE>();
        let mut naming = 0;
        for part in parts {
            naming += self.mark_part(part);
        }
        let mut last = [NOT_WRITTEN.to_le_bytes(); AT_ONCE];
        last[..rest.len()].copy_from_slice(rest);
        naming + self.mark_part(&last)
    }

    /// As [`Named::mark`]. Entries that name pages in a row, as those of a sequential
    /// batch do, are marked together.
    #[inline(always)]
    fn mark_part(&mut self, part: &[Entry; AT_ONCE]) -> usize {
        let entry = |at: usize| u32::from_le_bytes(part[at]);
        let all = (0..AT_ONCE).fold(0, |all, at| all | entry(at));
        if all as usize >= 8 * Self::END {
            return self.mark_some(part);
        }
        let first = entry(0);
        let off_the_row = (0..AT_ONCE).fold(0, |off, at| off | (entry(at) ^ (first + at as u32)));
        if off_the_row == 0 {
            self.mark_row(first as usize);
            return AT_ONCE;
        }
        for at in 0..AT_ONCE {
            let page = entry(at) as usize;
            self.0[page / 8 % Self::END] |= BITS[page % 8];
        }
        AT_ONCE
    }

    /// Marks pages in a row: the second byte is theirs alone.
    #[inline(always)]
    fn mark_row(&mut self, first: usize) {
        let [low, _, high, _] = (0xFFFF_u32 << (first % 8)).to_le_bytes();
        let byte = first / 8 % Self::END;
        self.0[byte] |= low;
        self.0[byte + 1] = u8::MAX;
        if high > 0 {
            self.0[byte + 2] |= high;
        }
    }

    /// As [`Named::mark`], where some entries name no page, or all.
    #[inline(always)]
    fn mark_some(&mut self, part: &[Entry; AT_ONCE]) -> usize {
        let entry = |at: usize| u32::from_le_bytes(part[at]);
        let naming =
            (0..AT_ONCE).fold(0, |naming, at| naming + u32::from(entry(at) != NOT_WRITTEN));
        if naming > 0 {
            for at in 0..AT_ONCE {
                let page = entry(at) as usize;
                self.0[(page / 8).min(Self::END + at)] |= BITS[page % 8];
            }
        }
        naming as usize
    }

    /// How many bits are set of so many pages from a first one on.
    fn count(&self, first: usize, pages: usize) -> u32 {
        if pages == 0 {
            return 0;
        }
        let last = first + pages - 1;
        let bytes = &self.0[first / 8..=last / 8];
        let (words, rest) = bytes.as_chunks::<8>();
        let words = words.iter().map(|&word| u64::from_le_bytes(word));
        let mut ones = words.fold(0, |ones, word| ones + word.count_ones());
        ones += rest.iter().fold(0, |ones, byte| ones + byte.count_ones());
        // What isn't theirs in the first and the last byte.
        if !first.is_multiple_of(8) {
            ones -= (bytes[0] & !(u8::MAX << (first % 8))).count_ones();
        }
        if last % 8 != 7 {
            ones -= (bytes[bytes.len() - 1] & (u8::MAX << (last % 8 + 1))).count_ones();
        }
        ones
    }
}
