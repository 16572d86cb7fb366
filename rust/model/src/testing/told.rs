//! What is told of a logical page, read back from its entries and looked at a second
//! time.

use crate::levels::Group;
use crate::ops::ENTRY_BYTES;
use crate::record::Record;

/// An entry, read back.
#[derive(Clone, Copy, Debug, Default, PartialEq, Eq)]
pub struct Told {
    /// S of the record, or 0.
    pub start: u8,
    /// L of the record, or 0.
    pub span: u8,
    /// The word of the record, or 0.
    pub word: u16,
    /// I of the record, or 0.
    pub intercept: i32,
    /// The reason, 0 to 3.
    pub reason: u8,
    /// The owner's start, if one is given.
    pub owner: Option<u8>,
}

impl Told {
    /// Reads an entry, whose last bytes have to be as they should: 1, the start and 0,
    /// or 'zeros without owner'.
    pub fn read(entry: [u8; ENTRY_BYTES]) -> Told {
        let [start, span, w0, w1, i0, i1, i2, i3, reason, given, owner, zero] = entry;
        assert!(given <= 1 && zero == 0 && (given == 1 || owner == 0));
        Told {
            start,
            span,
            word: u16::from_le_bytes([w0, w1]),
            intercept: i32::from_le_bytes([i0, i1, i2, i3]),
            reason,
            owner: (given == 1).then_some(owner),
        }
    }

    /// Whether this is the record that is told.
    pub fn is(&self, record: &Record) -> bool {
        (self.start, self.span) == (record.start, record.span)
            && (self.word, self.intercept) == (record.word, record.intercept)
    }

    /// Whether what is told of one level of a sound group is so: which record covers the
    /// offset, and why it has it as a member or hasn't.
    pub fn holds(&self, group: &Group, level: usize, offset: u8) -> bool {
        let mut covering = group.levels[level].iter().filter(|record| {
            let above = offset.checked_sub(record.start);
            above.is_some_and(|above| above <= record.span)
        });
        let Some(record) = covering.next() else {
            return *self == Told::default();
        };
        let stride = usize::from(record.word / 2).max(1);
        let on_stride = usize::from(offset - record.start).is_multiple_of(stride);
        let owned = record.owns.contains(&offset);
        let reason = match record.word % 2 {
            0 if on_stride => 3,
            0 => 1,
            _ if owned => 3,
            _ => 2,
        };
        self.is(record) && self.reason == reason && self.owner_holds(group, offset)
    }

    /// Whether an owner is given exactly where the reason is that the record told isn't
    /// the owner and another one is; its start names it among the approximate records.
    fn owner_holds(&self, group: &Group, offset: u8) -> bool {
        if self.reason != 2 {
            return self.owner.is_none();
        }
        let owners = group.records().filter(|one| one.owns.contains(&offset));
        let starts: Vec<u8> = owners.map(|owner| owner.start).collect();
        let named = |start| {
            let approximate = group.records().filter(|one| one.word % 2 == 1);
            approximate.filter(|one| one.start == start).count()
        };
        match self.owner {
            Some(start) => starts == [start] && named(start) == 1,
            None => starts.is_empty(),
        }
    }
}
