//! The inner functions of the proved code that the static library `probe`
//! exports for tests and benchmarks, declared and wrapped.
//!
//! A slice passes as pointer and length (in elements), and each result is a u64.
//! Each function checks its condition itself; where that isn't met it answers
//! [`OUTSIDE`] and changes nothing. The functions that take a group's bytes and no `n`
//! and `k` have as a condition that these are sound, as group 0 of 256 logical pages
//! or more.
//!
//! | function | parameters | condition | result |
//! |---|---|---|---|
//! | `probe_sort` | `batch: &[u32], pages: &mut [u32], sources: &mut [u32]` | at most 256 pages, each below 2^20; both lists not shorter | count; the logical pages, sorted, and their last arrival indexes stand at the front of the lists |
//! | `probe_learn` | `written: &[u32], first: u32, g: u32, out: &mut [u8], taken: &mut [u32]` | ascending, at most 256, `first` + length at most 2^21, g at most 15; 8 bytes of `out` and an entry of `taken` a page | count; the records, 8 bytes each, stand at the front of `out`, the pages that each takes at the front of `taken` |
//! | `probe_program` | `m: u32, b: u32, n: u32, g: u32, spare: &mut [u32], written: &[u32], block: u32, stop: u32` | device numbers within document 01's limits, `spare` of their length, `block` below m, at most b pages written, `stop` at most b × (2g + 1) | 0; the first `stop` entries of the block are those of a flush or collection that writes these pages on it |
//! | `probe_group_sound` | `part: &[u8], n: u32, k: u32` | 5,636 bytes, k at most 4,096 | 1 if they are a sound group k of n logical pages, else 0 |
//! | `probe_group_find` | `part: &[u8], o: u32` | sound, o below 256 | found × 2^56 + levels × 2^40 + start × 2^16 + word; where nothing is found 0 × 2^56 + all levels × 2^40 |
//! | `probe_group_insert` | `part: &mut [u8], record: &[u8], mask: &[u8]` | sound, fewer than 512 records; 8 bytes, a record that a sound group may have; 256 bytes, 1 at the record's members and 0 elsewhere | records after |
//! | `probe_group_compact` | `part: &mut [u8]` | sound | records left |
//!
//! A wrapper panics where the function answers [`OUTSIDE`], but for
//! [`answer_to_program`], with which tests call outside the condition.

#![deny(unsafe_code)]
#![warn(missing_docs)]

#[allow(unsafe_code)]
mod boundary;

pub use boundary::{answer_to_program, compact, find, insert, learn, program, sort, sound};

/// The answer to arguments that don't meet a function's condition.
pub const OUTSIDE: u64 = u64::MAX;

/// The bytes of a group.
pub const GROUP_BYTES: usize = 5636;

/// What a group says of an offset.
#[derive(Clone, Copy, Debug, PartialEq, Eq)]
pub struct Found {
    /// Start and word of the first record, from the top, that has the offset.
    pub record: Option<(u8, u16)>,
    /// How many levels were looked at.
    pub levels: u16,
}

impl Found {
    /// As `probe_group_find` packs it.
    pub fn packed(self) -> u64 {
        let levels = u64::from(self.levels) << 40;
        match self.record {
            Some((start, word)) => 1 << 56 | levels | u64::from(start) << 16 | u64::from(word),
            None => levels,
        }
    }

    /// Unpacks what `probe_group_find` answered, if it is packed like that.
    pub fn unpacked(answer: u64) -> Option<Found> {
        let found = answer >> 56 == 1;
        let unpacked = Found {
            record: found.then_some(((answer >> 16) as u8, answer as u16)),
            levels: (answer >> 40) as u16,
        };
        (unpacked.packed() == answer).then_some(unpacked)
    }
}

#[cfg(test)]
mod tests {
    use super::{Found, OUTSIDE};

    #[test]
    fn answers_are_unpacked_as_they_were_packed() {
        for (record, levels, answer) in [
            (Some((255, 513)), 512, 0x0102_0000_00FF_0201),
            (Some((0, 0)), 1, 0x0100_0100_0000_0000),
            (None, 3, 0x0000_0300_0000_0000),
            (None, 0, 0),
        ] {
            let found = Found { record, levels };
            assert_eq!(found.packed(), answer);
            assert_eq!(Found::unpacked(answer), Some(found));
        }
        // Bits where no field is, or a record where nothing was found.
        for answer in [OUTSIDE, 2 << 56, 1 << 56 | 1 << 24, 5] {
            assert_eq!(Found::unpacked(answer), None);
        }
    }
}
