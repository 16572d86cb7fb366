//! What the calls answer, taken from one packed number each.

use crate::Refusal;

/// Where a flush puts a batch.
#[derive(Clone, Copy, Debug, PartialEq, Eq, Hash)]
pub struct Flushed {
    /// The first page to write; the others follow it.
    pub first_page: u32,
    /// How many pages to write: the batch's distinct logical pages.
    pub count: u32,
}

/// Where a logical page is.
#[derive(Clone, Copy, Debug, PartialEq, Eq, Hash)]
pub enum Lookup {
    /// It was written.
    Found {
        /// The page that carries its last write.
        page: u32,
        /// The page that the table predicted, and whose spare area told the page.
        predicted: u32,
        /// How many levels of its group were looked at.
        levels: u32,
    },
    /// It was not written since the format, or it was discarded since its last write.
    NotWritten {
        /// How many levels its group has; 0 where it was discarded.
        levels: u32,
    },
}

impl Lookup {
    /// The page, or `None` for 'not written'.
    pub const fn page(self) -> Option<u32> {
        match self {
            Lookup::Found { page, .. } => Some(page),
            Lookup::NotWritten { .. } => None,
        }
    }

    /// How many levels were looked at.
    pub const fn levels(self) -> u32 {
        match self {
            Lookup::Found { levels, .. } | Lookup::NotWritten { levels } => levels,
        }
    }

    /// How many flash reads it takes to get the page: one where the prediction is
    /// right, two where it isn't, none for 'not written'.
    pub const fn reads(self) -> u32 {
        match self {
            Lookup::Found {
                page, predicted, ..
            } if page != predicted => 2,
            Lookup::Found { .. } => 1,
            Lookup::NotWritten { .. } => 0,
        }
    }
}

/// What a collection moves and frees.
#[derive(Clone, Copy, Debug, PartialEq, Eq, Hash)]
pub struct Collected {
    /// The first page to write, 0 where none is.
    pub first_page: u32,
    /// How many pages to copy.
    pub count: u32,
    /// How many blocks to erase after that.
    pub erased: u32,
}

/// Where the fields of an accepted answer begin, in bits; each has 20, but the
/// levels have 16.
const SECOND: u32 = 20;
const THIRD: u32 = 40;
const FOUND: u32 = 56;

/// Where the refusal begins.
const REFUSAL: u32 = 60;

/// The rest of an accepted answer, or the refusal.
#[inline]
pub(crate) fn accepted(answer: u64) -> Result<u64, Refusal> {
    match (answer >> REFUSAL) as u8 {
        0 => Ok(answer),
        number => Err(Refusal::of_number(number)),
    }
}

/// The 20 bits from `at` on.
#[inline]
const fn field(answer: u64, at: u32) -> u32 {
    (answer >> at & 0xF_FFFF) as u32
}

impl Flushed {
    #[inline]
    pub(crate) const fn unpacked(answer: u64) -> Flushed {
        Flushed {
            first_page: field(answer, 0),
            count: field(answer, SECOND),
        }
    }
}

impl Lookup {
    #[inline]
    pub(crate) const fn unpacked(answer: u64) -> Lookup {
        let levels = field(answer, THIRD) & 0xFFFF;
        match answer >> FOUND {
            0 => Lookup::NotWritten { levels },
            _ => Lookup::Found {
                page: field(answer, 0),
                predicted: field(answer, SECOND),
                levels,
            },
        }
    }
}

impl Collected {
    #[inline]
    pub(crate) const fn unpacked(answer: u64) -> Collected {
        Collected {
            first_page: field(answer, 0),
            count: field(answer, SECOND),
            erased: field(answer, THIRD),
        }
    }
}

#[cfg(test)]
mod tests {
    use super::{accepted, Collected, Flushed, Lookup};
    use crate::Refusal;

    /// The largest numbers that a device has: 4,096 blocks of 256 pages, 512
    /// levels.
    #[test]
    fn the_largest_answers_keep_their_fields_apart() {
        assert_eq!(
            Flushed::unpacked(0x0000_0000_100F_FF00),
            Flushed {
                first_page: 1_048_320,
                count: 256
            }
        );
        assert_eq!(
            Lookup::unpacked(0x0102_00FF_FFEF_FFFF),
            Lookup::Found {
                page: 1_048_575,
                predicted: 1_048_574,
                levels: 512
            }
        );
        assert_eq!(
            Lookup::unpacked(0x0002_0000_0000_0000),
            Lookup::NotWritten { levels: 512 }
        );
        // The plain engine's has neither a predicted page nor levels.
        let plain = Lookup::unpacked(0x0100_0000_000F_FFFF);
        assert_eq!(plain.page(), Some(1_048_575));
        assert_eq!(
            Collected::unpacked(0x0010_0000_100F_FF00),
            Collected {
                first_page: 1_048_320,
                count: 256,
                erased: 4096
            }
        );
    }

    #[test]
    fn the_smallest_answers_are_answers() {
        assert_eq!(
            Lookup::unpacked(0x0100_0100_0000_0000),
            Lookup::Found {
                page: 0,
                predicted: 0,
                levels: 1
            }
        );
        assert_eq!(Lookup::unpacked(0), Lookup::NotWritten { levels: 0 });
        assert_eq!(accepted(0), Ok(0));
        assert_eq!(accepted(0x0FFF_FFFF_FFFF_FFFF), Ok(0x0FFF_FFFF_FFFF_FFFF));
    }

    #[test]
    fn a_refusal_is_the_top_of_the_number() {
        for (refusal, number) in Refusal::ALL.iter().copied().zip(1u32..) {
            assert_eq!(refusal.number(), number);
            assert_eq!(accepted(u64::from(number) << 60), Err(refusal));
        }
    }

    /// The four bits of a refusal hold numbers that have no name yet.
    #[test]
    fn an_unknown_refusal_is_one_too() {
        for number in Refusal::ALL.len() as u8 + 1..16 {
            let refusal = Refusal::Other(number);
            assert_eq!(accepted(u64::from(number) << 60), Err(refusal));
            assert_eq!(refusal.number(), u32::from(number));
        }
    }
}
