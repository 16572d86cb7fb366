//! The record: 'start S (1), span L (1), word (2), intercept I (4)'.

use std::collections::BTreeSet;

/// A record, with the offsets it owns kept beside its four numbers. Ownership
/// belongs to the group; only approximate records of a sound group own any.
#[derive(Clone, Debug, PartialEq, Eq)]
pub struct Record {
    /// S, the first offset covered.
    pub start: u8,
    /// L: 'a record covers offsets S to S + L'.
    pub span: u8,
    /// The word, which tells the kind.
    pub word: u16,
    /// I: 'the intercept is a signed 32-bit number and may be negative'.
    pub intercept: i32,
    /// The offsets owned by this record.
    pub owns: BTreeSet<u8>,
}

/// The kinds of the table of words.
#[derive(Clone, Copy, Debug, PartialEq, Eq)]
pub enum Kind {
    /// Word 0.
    Single,
    /// Word 2d, d 1 to 255.
    Accurate {
        /// d.
        stride: u8,
    },
    /// Word 2a + 1, a 0 to 256; the slope is a / 256.
    Approximate {
        /// a.
        slope: u16,
    },
}

impl Kind {
    /// The kind of a word, if the table has it.
    pub fn of(word: u16) -> Option<Kind> {
        match word {
            0 => Some(Kind::Single),
            _ if word.is_multiple_of(2) => u8::try_from(word / 2)
                .ok()
                .map(|stride| Kind::Accurate { stride }),
            1..=513 => Some(Kind::Approximate { slope: word / 2 }),
            _ => None,
        }
    }

    /// The word of a kind.
    pub fn word(self) -> u16 {
        match self {
            Kind::Single => 0,
            Kind::Accurate { stride } => 2 * u16::from(stride),
            Kind::Approximate { slope } => 2 * slope + 1,
        }
    }

    /// What is added to the intercept at an offset: nothing, 'o / d rounded
    /// up', or 'a × o / 256 rounded up'.
    pub fn rise(self, offset: u8) -> i64 {
        match self {
            Kind::Single => 0,
            Kind::Accurate { stride } => i64::from(offset.div_ceil(stride)),
            Kind::Approximate { slope } => {
                i64::from((u32::from(slope) * u32::from(offset)).div_ceil(256))
            }
        }
    }
}

impl Record {
    /// A single or accurate record.
    pub fn exact(start: u8, span: u8, kind: Kind, intercept: i32) -> Record {
        Record {
            start,
            span,
            word: kind.word(),
            intercept,
            owns: BTreeSet::new(),
        }
    }

    /// An approximate record that owns `owns`, which is not empty.
    pub fn approximate(slope: u16, intercept: i32, owns: BTreeSet<u8>) -> Record {
        let (start, span) = range_of(&owns).expect("an approximate record owns an offset");
        Record {
            start,
            span,
            word: Kind::Approximate { slope }.word(),
            intercept,
            owns,
        }
    }

    /// The kind, if the word is in the table.
    pub fn kind(&self) -> Option<Kind> {
        Kind::of(self.word)
    }

    /// Whether the record is approximate.
    pub fn is_approximate(&self) -> bool {
        matches!(self.kind(), Some(Kind::Approximate { .. }))
    }

    /// S + L, which only a sound record keeps at 255 or below.
    pub fn last(&self) -> u32 {
        u32::from(self.start) + u32::from(self.span)
    }

    /// 'Eight bytes, little-endian: start S (1), span L (1), word (2), intercept I
    /// (4)'; what it owns is not among them.
    pub fn bytes(&self) -> [u8; 8] {
        let [w0, w1] = self.word.to_le_bytes();
        let [i0, i1, i2, i3] = self.intercept.to_le_bytes();
        [self.start, self.span, w0, w1, i0, i1, i2, i3]
    }

    /// 'A record covers offsets S to S + L.'
    pub fn covers(&self, offset: u8) -> bool {
        (u32::from(self.start)..=self.last()).contains(&offset.into())
    }

    /// Whether an offset is a member, by the table of words.
    pub fn has(&self, offset: u8) -> bool {
        match self.kind() {
            Some(Kind::Single) => offset == self.start,
            Some(Kind::Accurate { stride }) => {
                self.covers(offset) && (offset - self.start).is_multiple_of(stride)
            }
            Some(Kind::Approximate { .. }) => self.owns.contains(&offset),
            None => false,
        }
    }

    /// All members.
    pub fn members(&self) -> BTreeSet<u8> {
        (0..=255).filter(|&offset| self.has(offset)).collect()
    }

    /// The predicted page at an offset: 'added in i64 to a rounded-up
    /// fraction'. None for a word that the table doesn't have.
    pub fn predicted(&self, offset: u8) -> Option<i64> {
        Some(i64::from(self.intercept) + self.kind()?.rise(offset))
    }

    /// Whether the ranges S to S + L of two records meet.
    pub fn meets(&self, other: &Record) -> bool {
        u32::from(self.start) <= other.last() && u32::from(other.start) <= self.last()
    }

    /// The record without the members in `lost`: 'it shrinks to the first and
    /// last that remain (an accurate one keeps its stride; an approximate one
    /// gives up ownership), or goes'.
    pub fn without(&self, lost: &BTreeSet<u8>) -> Option<Record> {
        let remaining = &self.members() - lost;
        let (start, span) = range_of(&remaining)?;
        Some(Record {
            start,
            span,
            owns: &self.owns - lost,
            ..self.clone()
        })
    }
}

/// Start and span of a set of offsets, if it isn't empty.
fn range_of(offsets: &BTreeSet<u8>) -> Option<(u8, u8)> {
    let (first, last) = (offsets.first()?, offsets.last()?);
    Some((*first, last - first))
}
