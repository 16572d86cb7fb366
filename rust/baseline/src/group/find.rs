//! Where an offset is found.

use hedjosur_layout::Part;

use super::part::{covers, levels_to, name, owner, record, used_slots, Owner, Slot};
use crate::record::Record;
use crate::words::allows;

/// What a group says of an offset.
#[derive(Clone, Copy, Debug, PartialEq, Eq)]
pub struct Found {
    /// The first record, from the top, that has the offset as a member.
    pub record: Option<Record>,
    /// How many levels were looked at; all of them where there is no such record.
    pub levels: u16,
}

/// Finds an offset in a sound group.
pub fn find(part: &Part, offset: u8) -> Found {
    let owner = owner(part, offset);
    let used = used_slots(part);
    for slot in used {
        if covers(slot, offset) && has(slot, offset, owner) {
            return Found {
                record: Some(record(slot)),
                levels: levels_to(slot),
            };
        }
    }
    Found {
        record: None,
        levels: used.last().map_or(0, levels_to),
    }
}

/// Whether a slot's record has an offset that it covers, with this owner, as a member.
#[inline(always)]
pub(super) fn has(slot: &Slot, offset: u8, owner: Owner) -> bool {
    let held = record(slot);
    match held.is_approximate() {
        true => owner == name(held.start),
        false => allows(held.word, offset - held.start),
    }
}
