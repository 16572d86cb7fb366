//! What a group says of all offsets at once.

use hedjosur_layout::Part;

use super::owners::owned_offsets;
use super::part::{levels_to, owners, record, used_slots, Slot};
use crate::offsets::Offsets;
use crate::record::Record;

/// The bits of a predicted page in a word: pages have less.
const PAGE_BITS: u32 = 22;

/// What stands for the page of an offset that no record has.
const NO_PAGE: u32 = (1 << PAGE_BITS) - 1;

/// What stands for a prediction outside every device.
const OUTSIDE: u32 = NO_PAGE - 1;

/// The greatest prediction that stays below [`OUTSIDE`] for 256 members.
const INSIDE: u32 = OUTSIDE - 256;

/// A word for each offset: how many levels are looked at, above the predicted page's
/// bits. Of two records that have an offset, the upper one's word is the smaller.
type Words = [u32; 256];

/// What a sound group predicts, and after how many levels.
pub struct Predictions {
    words: Words,
    /// The offsets that have a predicted page.
    written: Offsets,
}

/// Room for what approximate records predict by, at each one's start plus 1.
pub struct Lines([Line; 257]);

impl Lines {
    /// None yet.
    pub fn none() -> Lines {
        Lines([Line::default(); 257])
    }
}

/// What an approximate record predicts by, and how many levels down it is.
#[derive(Clone, Copy, Default)]
struct Line {
    intercept: u32,
    slope: u16,
    levels: u16,
}

impl Predictions {
    /// None yet.
    #[inline(always)]
    pub fn none() -> Predictions {
        Predictions {
            words: [0; 256],
            written: Offsets::NONE,
        }
    }

    /// Fills in those of a sound group: the single and accurate records from the bottom
    /// up, so that what a record above predicts stays, then what the others own.
    pub fn fill(&mut self, part: &Part, lines: &mut Lines) {
        let used = used_slots(part);
        let levels = used.last().map_or(0, |slot| levels_to(slot).into());
        self.words.fill(word(levels, NO_PAGE));
        self.written = Offsets::NONE;
        // The offsets that approximate records cover are among these.
        let (mut first, mut last) = (u8::MAX, 0);
        for slot in used.iter().rev() {
            let held = record(slot);
            if held.is_approximate() {
                lines.0[usize::from(held.start) + 1] = Line::new(slot, held);
                (first, last) = (first.min(held.start), last.max(held.last()));
            } else {
                fill_exact(&mut self.words, levels_to(slot).into(), held);
                self.written = self.written | held.exact_members();
            }
        }
        if first <= last {
            self.fill_owned(part, owned_offsets(part, first, last), lines);
        }
    }

    /// Fills in what approximate records predict for the offsets that they own.
    fn fill_owned(&mut self, part: &Part, owned: Offsets, lines: &Lines) {
        let owners = owners(part);
        for offset in owned.iter() {
            let owner = u16::from_le_bytes(owners[usize::from(offset)]);
            let line = lines.0[usize::from(owner).min(256)];
            let to = &mut self.words[usize::from(offset)];
            *to = line.word(offset).min(*to);
        }
        self.written = self.written | owned;
    }

    /// Makes offsets not written, with no level looked at.
    pub fn discard(&mut self, discarded: Offsets) {
        for offset in discarded.iter() {
            self.words[usize::from(offset)] = NO_PAGE;
        }
        self.written = self.written.without(discarded);
    }

    /// The offsets that have a predicted page.
    #[inline]
    pub fn written(&self) -> Offsets {
        self.written
    }

    /// The predicted page of an offset that has one; one outside the device may be
    /// another one outside.
    #[inline]
    pub fn page(&self, offset: u8) -> u32 {
        self.words[usize::from(offset)] & NO_PAGE
    }

    /// Whether so many offsets have the same predicted page, or none, after as many
    /// levels; of pages outside every device no more is asked.
    #[inline]
    pub fn same(&self, other: &Predictions, offsets: usize) -> bool {
        self.words[..offsets] == other.words[..offsets]
    }
}

impl Line {
    #[inline]
    fn new(slot: &Slot, held: Record) -> Line {
        Line {
            intercept: held.intercept as u32,
            slope: held.word / 2,
            levels: levels_to(slot),
        }
    }

    /// The word of an offset.
    #[inline]
    fn word(self, offset: u8) -> u32 {
        let rise = (u32::from(self.slope) * u32::from(offset) + 255) >> 8;
        let page = self.intercept.wrapping_add(rise).min(OUTSIDE);
        word(self.levels.into(), page)
    }
}

#[inline]
fn word(levels: u32, page: u32) -> u32 {
    levels << PAGE_BITS | page
}

/// Fills in the words of a single or accurate record: the pages go up by one from
/// member to member.
#[inline(always)]
fn fill_exact(words: &mut Words, levels: u32, held: Record) {
    let covered = &mut words[usize::from(held.start)..=usize::from(held.last())];
    let page = held.predicted(held.start);
    if page > INSIDE {
        return fill_outside(covered, levels, held);
    }
    let mut next = word(levels, page);
    match held.word {
        0 => covered[0] = next,
        2 => covered
            .iter_mut()
            .zip(next..)
            .for_each(|(to, word)| *to = word),
        _ => {
            let mut at = 0;
            while let Some(to) = covered.get_mut(at) {
                *to = next;
                next += 1;
                at += usize::from(held.word / 2);
            }
        }
    }
}

/// As [`fill_exact`], where pages may be outside every device.
#[cold]
fn fill_outside(covered: &mut [u32], levels: u32, held: Record) {
    let page = held.predicted(held.start);
    let members = covered
        .iter_mut()
        .step_by(usize::from(held.word / 2).max(1));
    for (to, number) in members.zip(0..) {
        *to = word(levels, page.wrapping_add(number).min(OUTSIDE));
    }
}
