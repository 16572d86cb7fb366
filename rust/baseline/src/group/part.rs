//! The places in a group's bytes.

use hedjosur_layout::{
    Part, LEVEL_AT, OWNED_AT, OWNERS_AT, OWNER_BYTES, SLOTS_AT, SLOT_BYTES, USED_AT,
};

use crate::record::Record;

/// A slot's bytes: a record and its level. Used slots stand in listing order.
pub(super) type Slot = [u8; SLOT_BYTES];

/// An owner's bytes: 0, or its record's start plus 1.
pub(super) type Owner = [u8; OWNER_BYTES];

/// The owners' bytes of all offsets.
pub(super) type Owners = [Owner; 256];

/// What is stored for an offset that nobody owns.
pub(super) const NOBODY: Owner = [0; OWNER_BYTES];

/// How many records the group holds.
#[inline]
pub fn records(part: &Part) -> usize {
    usize::from(u16::from_le_bytes([part[USED_AT], part[USED_AT + 1]]))
}

#[inline]
pub(super) fn set_records(part: &mut Part, count: usize) {
    [part[USED_AT], part[USED_AT + 1]] = (count as u16).to_le_bytes();
}

/// Whether any offset is owned; otherwise the owners' bytes mean nothing.
#[inline]
pub(super) fn is_owned(part: &Part) -> bool {
    part[OWNED_AT] | part[OWNED_AT + 1] != 0
}

#[inline]
pub(super) fn set_owned(part: &mut Part, owned: bool) {
    part[OWNED_AT] = owned.into();
    part[OWNED_AT + 1] = 0;
}

#[inline]
pub(super) fn slots(part: &Part) -> &[Slot] {
    part[SLOTS_AT..OWNERS_AT].as_chunks().0
}

/// The slots that hold the group's records.
#[inline]
pub(super) fn used_slots(part: &Part) -> &[Slot] {
    &slots(part)[..records(part)]
}

#[inline]
pub(super) fn slots_mut(part: &mut Part) -> &mut [Slot] {
    part[SLOTS_AT..OWNERS_AT].as_chunks_mut().0
}

#[inline]
pub(super) fn owners(part: &Part) -> &Owners {
    let (owners, _) = part[OWNERS_AT..].as_chunks();
    owners.first_chunk().expect("an owner for each offset")
}

#[inline]
pub(super) fn owners_mut(part: &mut Part) -> &mut Owners {
    let (owners, _) = part[OWNERS_AT..].as_chunks_mut();
    owners.first_chunk_mut().expect("an owner for each offset")
}

/// What is stored for the owner of an offset.
#[inline]
pub(super) fn owner(part: &Part, offset: u8) -> Owner {
    match is_owned(part) {
        true => owners(part)[usize::from(offset)],
        false => NOBODY,
    }
}

/// What is stored for an offset that the record with this start owns.
#[inline]
pub(super) fn name(start: u8) -> Owner {
    (u16::from(start) + 1).to_le_bytes()
}

#[inline]
pub(super) fn slot(record: Record, level: u16) -> Slot {
    let [s, l, w0, w1, i0, i1, i2, i3] = record.to_bytes();
    let [l0, l1] = level.to_le_bytes();
    [s, l, w0, w1, i0, i1, i2, i3, l0, l1]
}

#[inline]
pub(super) fn record(slot: &Slot) -> Record {
    let [s, l, w0, w1, i0, i1, i2, i3, _, _] = *slot;
    Record::from_bytes([s, l, w0, w1, i0, i1, i2, i3])
}

/// Whether a slot's record covers an offset.
#[inline]
pub(super) fn covers(slot: &Slot, offset: u8) -> bool {
    // An offset below the start wraps to above the span.
    offset.wrapping_sub(slot[0]) <= slot[1]
}

#[inline]
pub(super) fn level(slot: &Slot) -> u16 {
    u16::from_le_bytes([slot[LEVEL_AT], slot[LEVEL_AT + 1]])
}

/// How many levels are looked at down to a slot.
#[inline]
pub(super) fn levels_to(slot: &Slot) -> u16 {
    level(slot) + 1
}

#[inline]
pub(super) fn set_level(slot: &mut Slot, level: u16) {
    [slot[LEVEL_AT], slot[LEVEL_AT + 1]] = level.to_le_bytes();
}
