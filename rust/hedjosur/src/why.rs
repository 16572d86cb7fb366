//! Why a lookup ends where it does, level by level.

use core::fmt::{self, Display, Formatter};
use core::iter::{Enumerate, FusedIterator};
use core::slice::Iter;

use crate::listing::{entries, RECORD_LEN};
use crate::numbers::GROUP_PAGES;
use crate::{Kind, Record};

/// The length in bytes of the buffer that [`Device::why`](crate::Device::why) is
/// lent: room for the 512 levels that a group may have.
///
/// ```
/// use hedjosur::{Device, Numbers, WHY_LEN};
///
/// let numbers = Numbers { blocks: 3, block_pages: 4, logical_pages: 4, error_bound: 0 };
/// let mut device = Device { state: [0; 5659], spare: [0; 12] };
/// device.format(numbers)?;
/// // Nothing is written: there is no level to tell of.
/// assert_eq!(device.why(3, &mut [0; WHY_LEN])?.count(), 0);
/// # Ok::<(), hedjosur::Refusal>(())
/// ```
pub const WHY_LEN: usize = 512 * TOLD_LEN;

/// What is told of a level: a record's bytes, and four for the reason.
const TOLD_LEN: usize = RECORD_LEN + 4;

/// What a lookup meets at one level: the record that covers the offset asked for, if
/// there is one, and why it has the offset as a member or hasn't.
///
/// It is displayed as a line for a person. The numbers in it are offsets of the group,
/// as in a listing: logical page p is offset p % 256 of group p / 256. A record is
/// shown by the first and the last offset that it covers, a single by its only one.
///
/// ```
/// use hedjosur::{Reason, Record};
///
/// // Every second offset from 16 to 46, on pages 128 to 143.
/// let record = Record { level: 2, start: 16, span: 30, word: 4, intercept: 120 };
/// for (reason, line) in [
///     (
///         Reason::NoneCovers { level: 2, offset: 48 },
///         "level 2: no record covers 48",
///     ),
///     (
///         Reason::OffTheStride { record, offset: 21 },
///         "level 2: record 16..46, stride 2: 21 is off the stride",
///     ),
///     (
///         Reason::Member { record, offset: 22 },
///         "level 2: record 16..46, stride 2: 22 is a member, page 131 is predicted",
///     ),
/// ] {
///     assert_eq!(reason.to_string(), line);
/// }
///
/// // An approximate record of 75, 78 and 82; nobody has 76, another record has 80.
/// let record = Record { level: 1, start: 75, span: 7, word: 89, intercept: 179 };
/// for (reason, line) in [
///     (
///         Reason::NotOwned { record, offset: 76, owner: None },
///         "level 1: record 75..82, approximate: 76 is not owned by it, nor by any other",
///     ),
///     (
///         Reason::NotOwned { record, offset: 80, owner: Some(72) },
///         "level 1: record 75..82, approximate: 80 is not owned by it, \
///          but by the approximate record from 72",
///     ),
/// ] {
///     assert_eq!(reason.to_string(), line);
/// }
/// ```
#[derive(Clone, Copy, Debug, PartialEq, Eq, Hash)]
pub enum Reason {
    /// No record of the level covers the offset.
    NoneCovers {
        /// The level, 0 newest.
        level: u16,
        /// The offset asked for.
        offset: u8,
    },
    /// An accurate record covers the offset, and its stride steps over it.
    OffTheStride {
        /// The record.
        record: Record,
        /// The offset asked for.
        offset: u8,
    },
    /// An approximate record covers the offset and doesn't own it.
    NotOwned {
        /// The record.
        record: Record,
        /// The offset asked for.
        offset: u8,
        /// The start of the record that owns the offset, if one does. No two
        /// approximate records of a group have the same start.
        owner: Option<u8>,
    },
    /// The record has the offset as a member: the lookup ends here.
    Member {
        /// The record.
        record: Record,
        /// The offset asked for.
        offset: u8,
    },
}

impl Reason {
    fn from_bytes(
        level: u16,
        offset: u8,
        [record @ .., reason, owned, start, _]: [u8; TOLD_LEN],
    ) -> Reason {
        let record = Record::from_bytes(level, record);
        match reason {
            0 => Reason::NoneCovers { level, offset },
            1 => Reason::OffTheStride { record, offset },
            2 => Reason::NotOwned {
                record,
                offset,
                owner: (owned != 0).then_some(start),
            },
            _ => Reason::Member { record, offset },
        }
    }

    /// The level, 0 newest.
    ///
    /// ```
    /// # use hedjosur::Reason;
    /// assert_eq!(Reason::NoneCovers { level: 2, offset: 48 }.level(), 2);
    /// ```
    pub const fn level(self) -> u16 {
        match self {
            Reason::NoneCovers { level, .. } => level,
            Reason::OffTheStride { record, .. }
            | Reason::NotOwned { record, .. }
            | Reason::Member { record, .. } => record.level,
        }
    }

    /// The offset asked for: the logical page's in its group.
    ///
    /// ```
    /// # use hedjosur::Reason;
    /// // Logical page 304 is offset 48 of group 1.
    /// assert_eq!(Reason::NoneCovers { level: 2, offset: 48 }.offset(), 48);
    /// ```
    pub const fn offset(self) -> u8 {
        match self {
            Reason::NoneCovers { offset, .. }
            | Reason::OffTheStride { offset, .. }
            | Reason::NotOwned { offset, .. }
            | Reason::Member { offset, .. } => offset,
        }
    }

    /// The record of the level that covers the offset, if there is one.
    ///
    /// ```
    /// # use hedjosur::{Reason, Record};
    /// let record = Record { level: 2, start: 16, span: 30, word: 4, intercept: 120 };
    /// assert_eq!(Reason::OffTheStride { record, offset: 21 }.record(), Some(record));
    /// assert_eq!(Reason::NoneCovers { level: 2, offset: 48 }.record(), None);
    /// ```
    pub const fn record(self) -> Option<Record> {
        match self {
            Reason::NoneCovers { .. } => None,
            Reason::OffTheStride { record, .. }
            | Reason::NotOwned { record, .. }
            | Reason::Member { record, .. } => Some(record),
        }
    }

    /// The start of the approximate record that owns the offset, where the one met
    /// doesn't and another does. That may be hidden by a newer record, so that the
    /// lookup ends before it.
    ///
    /// ```
    /// # use hedjosur::{Reason, Record};
    /// let record = Record { level: 0, start: 72, span: 8, word: 79, intercept: 245 };
    /// let reason = Reason::NotOwned { record, offset: 78, owner: Some(75) };
    /// assert_eq!(reason.owner(), Some(75));
    /// assert_eq!(Reason::Member { record, offset: 80 }.owner(), None);
    /// ```
    pub const fn owner(self) -> Option<u8> {
        match self {
            Reason::NotOwned { owner, .. } => owner,
            _ => None,
        }
    }

    /// Whether the record has the offset as a member, so that the lookup ends here.
    ///
    /// ```
    /// # use hedjosur::{Reason, Record};
    /// let record = Record { level: 0, start: 72, span: 8, word: 79, intercept: 245 };
    /// assert!(Reason::Member { record, offset: 80 }.is_member());
    /// assert!(!Reason::NotOwned { record, offset: 76, owner: None }.is_member());
    /// ```
    pub const fn is_member(self) -> bool {
        matches!(self, Reason::Member { .. })
    }
}

impl Display for Reason {
    fn fmt(&self, f: &mut Formatter<'_>) -> fmt::Result {
        write!(f, "level {}: ", self.level())?;
        if let Some(record) = self.record() {
            let (first, last) = (record.start, record.last());
            match record.kind() {
                Kind::Single => write!(f, "record {first}, single: "),
                Kind::Accurate { stride } => write!(f, "record {first}..{last}, stride {stride}: "),
                Kind::Approximate { .. } => write!(f, "record {first}..{last}, approximate: "),
            }?;
        }
        match *self {
            Reason::NoneCovers { offset, .. } => write!(f, "no record covers {offset}"),
            Reason::OffTheStride { offset, .. } => write!(f, "{offset} is off the stride"),
            Reason::NotOwned { offset, owner, .. } => {
                write!(f, "{offset} is not owned by it, ")?;
                match owner {
                    Some(start) => write!(f, "but by the approximate record from {start}"),
                    None => write!(f, "nor by any other"),
                }
            }
            Reason::Member { record, offset } => {
                let page = record.predict(offset);
                write!(f, "{offset} is a member, page {page} is predicted")
            }
        }
    }
}

/// The reasons of a logical page's levels, from the top down to the record that has
/// the page or else to the last level; made by [`Device::why`](crate::Device::why).
///
/// ```
/// # use hedjosur::{Device, Numbers, Reason, Record, WHY_LEN};
/// # let numbers = Numbers { blocks: 9, block_pages: 64, logical_pages: 256, error_bound: 0 };
/// # let mut device = Device { state: [0; 5702], spare: [0; 576] };
/// # device.format(numbers)?;
/// device.flush(&[100, 102, 104, 106], &mut [0; 64])?;
/// device.flush(&[103], &mut [0; 64])?;
/// let mut buffer = [0; WHY_LEN];
/// let mut why = device.why(104, &mut buffer)?;
/// // As many as a lookup looks at levels; the last says whether it finds the page.
/// assert_eq!(why.len(), 2);
/// assert_eq!(why.next(), Some(Reason::NoneCovers { level: 0, offset: 104 }));
/// let record = Record { level: 1, start: 100, span: 6, word: 4, intercept: -50 };
/// assert_eq!(why.next(), Some(Reason::Member { record, offset: 104 }));
/// assert_eq!(why.next(), None);
/// # Ok::<(), hedjosur::Refusal>(())
/// ```
#[derive(Clone, Debug)]
pub struct Why<'a> {
    levels: Enumerate<Iter<'a, [u8; TOLD_LEN]>>,
    offset: u8,
}

impl<'a> Why<'a> {
    /// The first `count` reasons of a buffer, which are a logical page's.
    pub(crate) fn new(buffer: &'a [u8], count: usize, logical_page: u32) -> Why<'a> {
        let levels = entries(buffer, count).enumerate();
        let offset = (logical_page % GROUP_PAGES) as u8;
        Why { levels, offset }
    }
}

impl Iterator for Why<'_> {
    type Item = Reason;

    fn next(&mut self) -> Option<Reason> {
        let (level, told) = self.levels.next()?;
        Some(Reason::from_bytes(level as u16, self.offset, *told))
    }

    fn size_hint(&self) -> (usize, Option<usize>) {
        self.levels.size_hint()
    }
}

impl ExactSizeIterator for Why<'_> {}

impl FusedIterator for Why<'_> {}

#[cfg(test)]
mod tests {
    use super::{Reason, Why, WHY_LEN};
    use crate::Record;

    #[test]
    fn reasons_are_read_from_their_bytes() {
        let mut buffer = [0xA5; WHY_LEN];
        for (bytes, told) in buffer.chunks_exact_mut(12).zip([
            [0, 0, 0, 0, 0, 0, 0, 0, 0, 0, 0, 0],
            [100, 6, 4, 0, 0xCE, 0xFF, 0xFF, 0xFF, 1, 0, 0, 0],
            [0, 255, 1, 2, 0, 0, 0, 0x80, 2, 0, 0, 0],
            [0, 255, 1, 2, 0, 0, 0, 0x80, 2, 1, 0, 0],
            [0, 0, 0, 0, 0, 0, 0, 0, 3, 0, 0, 0],
        ]) {
            bytes.copy_from_slice(&told);
        }
        let record = |level, start, span, word, intercept| Record {
            level,
            start,
            span,
            word,
            intercept,
        };
        let offset = 101;
        let mut why = Why::new(&buffer, 5, 256 * 7 + 101);
        for (left, reason) in (0..5).rev().zip([
            Reason::NoneCovers { level: 0, offset },
            Reason::OffTheStride {
                record: record(1, 100, 6, 4, -50),
                offset,
            },
            Reason::NotOwned {
                record: record(2, 0, 255, 513, i32::MIN),
                offset,
                owner: None,
            },
            // An owner that starts at 0 is one.
            Reason::NotOwned {
                record: record(3, 0, 255, 513, i32::MIN),
                offset,
                owner: Some(0),
            },
            // And a record of zeros is a record.
            Reason::Member {
                record: record(4, 0, 0, 0, 0),
                offset,
            },
        ]) {
            assert_eq!(why.next(), Some(reason));
            assert_eq!(why.len(), left);
        }
        assert_eq!((why.next(), why.next()), (None, None));
        let last = Why::new(&buffer, 512, 0).last().expect("512 levels");
        assert_eq!(last.level(), 511);
    }
}
