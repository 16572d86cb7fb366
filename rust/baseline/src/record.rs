//! The record by value.

use hedjosur_layout::RECORD_BYTES;

use crate::offsets::Offsets;
use crate::words::allows;

/// A record; the offsets that an approximate one owns are kept by its group.
#[derive(Clone, Copy, Debug, Default, PartialEq, Eq)]
pub struct Record {
    /// S, the first offset covered.
    pub start: u8,
    /// L: offsets S to S + L are covered.
    pub span: u8,
    /// 0 single, 2d accurate with stride d, 2a + 1 approximate with slope a / 256.
    pub word: u16,
    /// I, what predictions are counted from.
    pub intercept: i32,
}

impl Record {
    /// The record of eight bytes.
    #[inline]
    pub fn from_bytes(bytes: [u8; RECORD_BYTES]) -> Record {
        let [start, span, w0, w1, i0, i1, i2, i3] = bytes;
        Record {
            start,
            span,
            word: u16::from_le_bytes([w0, w1]),
            intercept: i32::from_le_bytes([i0, i1, i2, i3]),
        }
    }

    /// The record's eight bytes.
    #[inline]
    pub fn to_bytes(self) -> [u8; RECORD_BYTES] {
        let [w0, w1] = self.word.to_le_bytes();
        let [i0, i1, i2, i3] = self.intercept.to_le_bytes();
        [self.start, self.span, w0, w1, i0, i1, i2, i3]
    }

    /// Whether the record is approximate, of a word as tabled.
    #[inline]
    pub fn is_approximate(self) -> bool {
        self.word % 2 == 1
    }

    /// The last offset covered, of a sound record.
    #[inline]
    pub fn last(self) -> u8 {
        self.start + self.span
    }

    /// The members of a sound single or accurate record.
    #[inline(always)]
    pub fn exact_members(self) -> Offsets {
        match self.span {
            0 => Offsets::range(self.start, self.start),
            _ => Offsets::strided(self.start, self.last(), (self.word / 2) as u8),
        }
    }

    /// The members that a mask of a byte for each offset has, 1 for a member and 0 for
    /// any other, if a sound group may hold the record with them. An approximate
    /// record's are any between its first and its last.
    pub fn members_by(self, mask: &[u8; 256]) -> Option<Offsets> {
        let (parts, _) = mask.as_chunks::<8>();
        let mut words = [0; 4];
        let mut bytes = 0;
        for (at, &part) in parts.iter().enumerate() {
            let part = u64::from_le_bytes(part);
            bytes |= part;
            // Eight bytes that are 0 or 1 become eight bits.
            words[at / 8] |= part.wrapping_mul(0x0102_0408_1020_4080) >> 56 << (at % 8 * 8);
        }
        let members = Offsets::from_words(words);
        let last = self.start.checked_add(self.span)?;
        let is_tabled = self.word < 1024 && allows(self.word, self.span);
        let fits = match self.is_approximate() {
            true => members.ends() == Some((self.start, last)),
            false => is_tabled && members == self.exact_members(),
        };
        (bytes & !0x0101_0101_0101_0101 == 0 && is_tabled && fits).then_some(members)
    }

    /// The record with the range of these members, if there is one.
    #[inline]
    pub fn narrowed(self, members: Offsets) -> Option<Record> {
        let (start, last) = members.ends()?;
        let span = last - start;
        Some(Record {
            start,
            span,
            ..self
        })
    }

    /// The predicted page at an offset, of a word as tabled. A prediction outside
    /// the device, modulo 2^32, is still outside.
    #[inline]
    pub fn predicted(self, offset: u8) -> u32 {
        let (offset, factor) = (u32::from(offset), u32::from(self.word / 2));
        let rise = match self.word {
            0 => 0,
            2 => offset,
            _ if self.is_approximate() => (factor * offset + 255) >> 8,
            _ => offset.div_ceil(factor),
        };
        (self.intercept as u32).wrapping_add(rise)
    }
}
