//! A set of offsets of a group, one bit each.

use std::ops::{BitAnd, BitOr};

/// A set of offsets, 0 to 255, 64 to a word.
#[derive(Clone, Copy, Debug, Default, Eq)]
pub struct Offsets([u64; 4]);

/// For each stride its multiples, behind as many empty words: moving them up by
/// whole words is reading from an earlier place.
static MULTIPLES: [[u64; 8]; 256] = multiples();

const fn multiples() -> [[u64; 8]; 256] {
    let mut table = [[0, 0, 0, 0, 1, 0, 0, 0]; 256];
    let mut stride = 1;
    while stride < 256 {
        let mut offset = stride;
        while offset < 256 {
            table[stride][4 + offset / 64] |= 1 << (offset % 64);
            offset += stride;
        }
        stride += 1;
    }
    table
}

/// For each number the offsets below it.
static BELOW: [Offsets; 257] = below();

const fn below() -> [Offsets; 257] {
    let mut table = [Offsets([0; 4]); 257];
    let mut number = 1;
    while number <= 256 {
        table[number] = table[number - 1];
        table[number].0[(number - 1) / 64] |= 1 << ((number - 1) % 64);
        number += 1;
    }
    table
}

impl Offsets {
    /// No offset.
    pub const NONE: Offsets = Offsets([0; 4]);

    /// All offsets.
    pub const ALL: Offsets = Offsets([u64::MAX; 4]);

    /// `start`, `start + stride`, .. up to `last`, which is not below `start`;
    /// `start` alone for stride 0.
    #[inline]
    pub fn strided(start: u8, last: u8, stride: u8) -> Offsets {
        let words = &MULTIPLES[usize::from(stride)];
        let at = 4 - usize::from(start / 64);
        let bits = start % 64;
        // What leaves a word goes into the next, also where nothing moves.
        let moved = |k: usize| words[at + k] << bits | (words[at + k - 1] >> 1) >> (63 - bits);
        Offsets(std::array::from_fn(moved)) & Offsets::up_to(last)
    }

    /// All offsets from `start` to `last`.
    #[inline]
    pub fn range(start: u8, last: u8) -> Offsets {
        Offsets::up_to(last).without(BELOW[usize::from(start)])
    }

    /// All offsets up to `last`.
    #[inline]
    fn up_to(last: u8) -> Offsets {
        BELOW[usize::from(last) + 1]
    }

    /// The set of these bits.
    #[inline]
    pub fn from_words(words: [u64; 4]) -> Offsets {
        Offsets(words)
    }

    /// The set of these bits, lowest first.
    #[inline]
    pub fn from_bytes(bytes: [u8; 32]) -> Offsets {
        let (words, _) = bytes.as_chunks::<8>();
        Offsets(std::array::from_fn(|k| u64::from_le_bytes(words[k])))
    }

    /// The set's bits, lowest first.
    #[inline]
    pub fn to_bytes(self) -> [u8; 32] {
        let mut bytes = [0; 32];
        let (words, _) = bytes.as_chunks_mut::<8>();
        for (bytes, word) in words.iter_mut().zip(self.0) {
            *bytes = word.to_le_bytes();
        }
        bytes
    }

    /// Puts an offset into the set.
    #[inline]
    pub fn insert(&mut self, offset: u8) {
        self.0[usize::from(offset / 64)] |= 1 << (offset % 64);
    }

    /// Whether the set has an offset.
    #[inline]
    pub fn contains(&self, offset: u8) -> bool {
        self.0[usize::from(offset / 64)] >> (offset % 64) & 1 == 1
    }

    /// Whether the set has no offset.
    #[inline]
    pub fn is_empty(&self) -> bool {
        let [a, b, c, d] = self.0;
        a | b | c | d == 0
    }

    /// Whether the sets have an offset in common.
    #[inline]
    pub fn meets(&self, other: &Offsets) -> bool {
        !(*self & *other).is_empty()
    }

    /// The offsets that are not in another set.
    #[inline]
    pub fn without(self, other: Offsets) -> Offsets {
        Offsets(std::array::from_fn(|k| self.0[k] & !other.0[k]))
    }

    /// The first and last offset, if there is one.
    #[inline]
    pub fn ends(&self) -> Option<(u8, u8)> {
        if self.is_empty() {
            return None;
        }
        let Offsets([a, b, c, d]) = *self;
        let (low, high, from) = if a | b != 0 { (a, b, 0) } else { (c, d, 128) };
        let (word, from) = if low != 0 {
            (low, from)
        } else {
            (high, from + 64)
        };
        let first = from + word.trailing_zeros();
        let (low, high, from) = if c | d != 0 { (c, d, 128) } else { (a, b, 0) };
        let (word, from) = if high != 0 {
            (high, from + 64)
        } else {
            (low, from)
        };
        let last = from + 63 - word.leading_zeros();
        Some((first as u8, last as u8))
    }

    /// The offsets, ascending.
    #[inline]
    pub fn iter(self) -> impl Iterator<Item = u8> {
        [0, 64, 128, 192]
            .into_iter()
            .zip(self.0)
            .flat_map(|(from, mut bits)| {
                std::iter::from_fn(move || {
                    let bit = (bits != 0).then(|| bits.trailing_zeros() as u8)?;
                    bits &= bits - 1;
                    Some(from + bit)
                })
            })
    }
}

impl FromIterator<u8> for Offsets {
    #[inline]
    fn from_iter<T: IntoIterator<Item = u8>>(offsets: T) -> Offsets {
        let mut set = Offsets::NONE;
        offsets.into_iter().for_each(|offset| set.insert(offset));
        set
    }
}

/// Word by word: compared as bytes, words that were just computed would have to go
/// through memory.
impl PartialEq for Offsets {
    #[inline]
    fn eq(&self, other: &Offsets) -> bool {
        Offsets(std::array::from_fn(|k| self.0[k] ^ other.0[k])).is_empty()
    }
}

impl BitAnd for Offsets {
    type Output = Offsets;

    #[inline]
    fn bitand(self, other: Offsets) -> Offsets {
        Offsets(std::array::from_fn(|k| self.0[k] & other.0[k]))
    }
}

impl BitOr for Offsets {
    type Output = Offsets;

    #[inline]
    fn bitor(self, other: Offsets) -> Offsets {
        Offsets(std::array::from_fn(|k| self.0[k] | other.0[k]))
    }
}

#[cfg(test)]
mod tests {
    use super::Offsets;

    #[test]
    fn strided_sets_are_what_their_name_says() {
        for (start, last, stride) in (0..=255u8).flat_map(|o| {
            [
                (o, 255, 1),
                (o, 255, 7),
                (0, o, 3),
                (o, o, 0),
                (o, 255, 255),
            ]
        }) {
            let plain: Vec<u8> = (start..=last)
                .step_by(usize::from(stride).max(1))
                .take(if stride == 0 { 1 } else { 256 })
                .collect();
            let set = Offsets::strided(start, last, stride);
            assert_eq!(set.iter().collect::<Vec<u8>>(), plain);
            assert_eq!(set, plain.iter().copied().collect());
            assert_eq!(set.ends(), Some((start, plain[plain.len() - 1])));
            assert!(plain.iter().all(|&offset| set.contains(offset)));
        }
        assert_eq!(Offsets::NONE.ends(), None);
    }
}
