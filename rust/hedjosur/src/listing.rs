//! A group's records.

use core::fmt::{self, Display, Formatter};
use core::iter::FusedIterator;
use core::slice::Iter;

/// The length in bytes of the buffer that [`Device::list`](crate::Device::list)
/// is lent: room for the 512 records that a group may hold.
pub const LISTING_LEN: usize = 512 * LISTED_LEN;

/// A listed record: its bytes, and two for its level.
const LISTED_LEN: usize = RECORD_LEN + 2;

/// A record's bytes.
pub(crate) const RECORD_LEN: usize = 8;

/// The first `count` of the entries that a call wrote into a buffer, each of `LEN`
/// bytes.
pub(crate) fn entries<const LEN: usize>(buffer: &[u8], count: usize) -> Iter<'_, [u8; LEN]> {
    let (entries, _) = buffer.as_chunks();
    entries[..count.min(entries.len())].iter()
}

/// A record of a group, with its level. It is displayed as a line of a listing,
/// in columns of 6, 6, 6, 6 and 10.
///
/// ```
/// use hedjosur::{Kind, Record};
///
/// // Every second offset from 100 to 106, on pages 0 to 3.
/// let record = Record { level: 0, start: 100, span: 6, word: 4, intercept: -50 };
/// assert_eq!(record.to_string(), "     0   100     6     4       -50");
/// assert_eq!(record.kind(), Kind::Accurate { stride: 2 });
/// let members = record.members().expect("not an approximate one");
/// assert_eq!(members.collect::<Vec<_>>(), [100, 102, 104, 106]);
/// assert_eq!(record.predict(104), 2);
/// ```
#[derive(Clone, Copy, Debug, PartialEq, Eq, Hash)]
pub struct Record {
    /// Its level, 0 newest.
    pub level: u16,
    /// S, the first offset covered.
    pub start: u8,
    /// L: offsets S to S + L are covered.
    pub span: u8,
    /// 0 single, 2d accurate with stride d, 2a + 1 approximate with slope a / 256.
    pub word: u16,
    /// I, what predicted pages are counted from; it may be negative.
    pub intercept: i32,
}

/// What a record's word says.
#[derive(Clone, Copy, Debug, PartialEq, Eq, Hash)]
pub enum Kind {
    /// It has one offset, S.
    Single,
    /// It has S, S + d and so on up to S + L, and each predicted page is right.
    Accurate {
        /// d, 1 to 255 in a sound group.
        stride: u16,
    },
    /// It has the offsets that it owns, of which a listing shows the first and the
    /// last alone, S and S + L. A predicted page may be off by up to g.
    Approximate {
        /// a, 0 to 256 in a sound group: the slope is a / 256.
        slope: u16,
    },
}

impl Record {
    /// The record of a level that has these bytes.
    pub(crate) fn from_bytes(
        level: u16,
        [s, l, w0, w1, i0, i1, i2, i3]: [u8; RECORD_LEN],
    ) -> Record {
        Record {
            level,
            start: s,
            span: l,
            word: u16::from_le_bytes([w0, w1]),
            intercept: i32::from_le_bytes([i0, i1, i2, i3]),
        }
    }

    /// What its word says.
    pub const fn kind(self) -> Kind {
        match (self.word, self.word % 2) {
            (0, _) => Kind::Single,
            (word, 0) => Kind::Accurate { stride: word / 2 },
            (word, _) => Kind::Approximate { slope: word / 2 },
        }
    }

    /// The offsets that it has, ascending, or `None` for an approximate record: a
    /// listing doesn't say which offsets that owns.
    ///
    /// ```
    /// # use hedjosur::Record;
    /// let single = Record { level: 1, start: 7, span: 0, word: 0, intercept: 300 };
    /// assert!(single.members().expect("a single").eq([7]));
    /// let approximate = Record { level: 0, start: 0, span: 5, word: 3, intercept: 65 };
    /// assert!(approximate.members().is_none());
    /// ```
    pub fn members(self) -> Option<impl Iterator<Item = u8>> {
        let (last, stride) = match self.kind() {
            Kind::Single => (self.start, 1),
            Kind::Accurate { stride } => (self.last(), stride),
            Kind::Approximate { .. } => return None,
        };
        Some((self.start..=last).step_by(usize::from(stride)))
    }

    /// S + L, the last offset covered.
    pub(crate) const fn last(self) -> u8 {
        self.start.saturating_add(self.span)
    }

    /// The page that it predicts for an offset, whether it has the offset or not;
    /// a page of the device where it has it in a sound group.
    ///
    /// ```
    /// # use hedjosur::Record;
    /// // Document 01's batch 0, 1, 4, 5 from page 64 with bound 1.
    /// let record = Record { level: 0, start: 0, span: 5, word: 3, intercept: 65 };
    /// assert_eq!([0, 1, 4, 5].map(|offset| record.predict(offset)), [65, 66, 66, 66]);
    /// ```
    pub const fn predict(self, offset: u8) -> i64 {
        let intercept = self.intercept as i64;
        match self.kind() {
            Kind::Single => intercept,
            Kind::Accurate { stride } => {
                intercept + (offset as i64 + stride as i64 - 1) / stride as i64
            }
            Kind::Approximate { slope } => intercept + (slope as i64 * offset as i64 + 255) / 256,
        }
    }
}

impl Display for Record {
    fn fmt(&self, f: &mut Formatter<'_>) -> fmt::Result {
        let Record {
            level,
            start,
            span,
            word,
            intercept,
        } = self;
        write!(f, "{level:>6}{start:>6}{span:>6}{word:>6}{intercept:>10}")
    }
}

/// The records of a group, levels downward, each ascending; made by
/// [`Device::list`](crate::Device::list).
#[derive(Clone, Debug)]
pub struct Listing<'a> {
    records: Iter<'a, [u8; LISTED_LEN]>,
}

impl<'a> Listing<'a> {
    /// The first `count` records of a buffer.
    pub(crate) fn new(buffer: &'a [u8], count: usize) -> Listing<'a> {
        let records = entries(buffer, count);
        Listing { records }
    }
}

impl Iterator for Listing<'_> {
    type Item = Record;

    fn next(&mut self) -> Option<Record> {
        let [record @ .., l0, l1] = *self.records.next()?;
        Some(Record::from_bytes(u16::from_le_bytes([l0, l1]), record))
    }

    fn size_hint(&self) -> (usize, Option<usize>) {
        self.records.size_hint()
    }
}

impl ExactSizeIterator for Listing<'_> {}

impl FusedIterator for Listing<'_> {}

#[cfg(test)]
mod tests {
    use super::{Kind, Listing, Record, LISTING_LEN};

    /// Whatever its word and its ends, a record can be asked.
    #[test]
    fn any_record_has_a_kind_members_and_predictions() {
        for word in 0..=u16::MAX {
            let (start, span, intercept) = (200, 100, i32::MIN);
            let record = Record {
                level: 0,
                start,
                span,
                word,
                intercept,
            };
            let below = i64::from(i32::MIN);
            let (kind, members, predicted) = match word {
                0 => (Kind::Single, Some(1), 0),
                _ if word % 2 == 0 => {
                    let stride = word / 2;
                    let members = 55 / usize::from(stride) + 1;
                    let predicted = 255u16.div_ceil(stride);
                    (
                        Kind::Accurate { stride },
                        Some(members),
                        i64::from(predicted),
                    )
                }
                _ => {
                    let slope = word / 2;
                    let predicted = (u32::from(slope) * 255).div_ceil(256);
                    (Kind::Approximate { slope }, None, i64::from(predicted))
                }
            };
            assert_eq!(record.kind(), kind);
            assert_eq!(record.members().map(Iterator::count), members);
            assert_eq!(record.predict(255), below + predicted);
        }
    }

    #[test]
    fn records_are_read_from_their_bytes() {
        let mut buffer = [0xA5; LISTING_LEN];
        buffer[..10].copy_from_slice(&[100, 6, 4, 0, 0xCE, 0xFF, 0xFF, 0xFF, 0, 0]);
        buffer[10..20].copy_from_slice(&[0, 255, 1, 2, 0, 0, 0, 0x80, 0xFF, 1]);
        let mut listing = Listing::new(&buffer, 2);
        assert_eq!(listing.len(), 2);
        assert_eq!(
            listing.next(),
            Some(Record {
                level: 0,
                start: 100,
                span: 6,
                word: 4,
                intercept: -50
            })
        );
        assert_eq!(
            listing.next(),
            Some(Record {
                level: 511,
                start: 0,
                span: 255,
                word: 513,
                intercept: i32::MIN
            })
        );
        assert_eq!(listing.next(), None);
        assert_eq!(Listing::new(&buffer, 512).len(), 512);
    }
}
