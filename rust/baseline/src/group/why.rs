//! Why an offset is found where it is, or nowhere.

use hedjosur_layout::Part;
use hedjosur_model::ops::ENTRY_BYTES;

use super::find::has;
use super::part::{covers, level, levels_to, owner, record, used_slots, Owner, Slot, NOBODY};

/// An entry's bytes: a record, or zeros, and its reason.
pub type Entry = [u8; ENTRY_BYTES];

/// A reason's bytes: its number, and 1 and the owner's start where an owner is given.
type Reason = [u8; 4];

const OFF_THE_STRIDE: Reason = [1, 0, 0, 0];
const MEMBER: Reason = [3, 0, 0, 0];

/// The entry of a level in which no record covers the offset.
const NONE_COVERS: Entry = [0; ENTRY_BYTES];

/// How many slots are passed over at once where they can be.
const BLOCK: usize = 16;

/// Lists an entry for each level of a sound group, from the top down to the record that
/// has an offset as a member; answers how many. Later entries stay.
pub fn why(part: &Part, offset: u8, entries: &mut [Entry]) -> usize {
    let owner = owner(part, offset);
    let used = used_slots(part);
    let mut listed = 0;
    let mut left = used;
    while let Some(at) = first_covering(left, offset) {
        let slot = &left[at];
        left = &left[at + 1..];
        let level = usize::from(level(slot));
        entries[listed..level].fill(NONE_COVERS);
        listed = level + 1;
        let is_member = has(slot, offset, owner);
        let reason = match record(slot).is_approximate() {
            _ if is_member => MEMBER,
            true => not_owned(owner),
            false => OFF_THE_STRIDE,
        };
        let [s, l, w0, w1, i0, i1, i2, i3, _, _] = *slot;
        let [r, given, start, zero] = reason;
        entries[level] = [s, l, w0, w1, i0, i1, i2, i3, r, given, start, zero];
        if is_member {
            return listed;
        }
    }
    let levels = used.last().map_or(0, levels_to).into();
    entries[listed..levels].fill(NONE_COVERS);
    levels
}

/// The reason of an approximate record that covers an offset and isn't its owner, which
/// is this.
#[inline(always)]
fn not_owned(owner: Owner) -> Reason {
    match owner {
        NOBODY => [2, 0, 0, 0],
        _ => [2, 1, owner[0].wrapping_sub(1), 0],
    }
}

/// The first slot whose record covers an offset.
#[inline(always)]
fn first_covering(slots: &[Slot], offset: u8) -> Option<usize> {
    let is_covering = |slot: &Slot| covers(slot, offset);
    let (blocks, rest) = slots.as_chunks();
    for (number, block) in blocks.iter().enumerate() {
        if is_outside(block, offset) {
            continue;
        }
        if let Some(at) = block.iter().position(is_covering) {
            return Some(BLOCK * number + at);
        }
    }
    let at = rest.iter().position(is_covering)?;
    Some(BLOCK * blocks.len() + at)
}

/// Whether slots of one level, which ascend, begin behind an offset or end before it.
#[inline(always)]
fn is_outside(block: &[Slot; BLOCK], offset: u8) -> bool {
    let (first, last) = (&block[0], &block[BLOCK - 1]);
    level(first) == level(last) && (offset < first[0] || offset > record(last).last())
}
