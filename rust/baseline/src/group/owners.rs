//! Members and owners: which offsets a record of the group has, and how approximate
//! records give up and get theirs.

use hedjosur_layout::Part;

use super::part::{
    is_owned, level, name, owners, owners_mut, record, records, set_level, set_owned, set_records,
    slots, slots_mut, Owner, NOBODY,
};
use crate::offsets::Offsets;
use crate::record::Record;

/// The members of a record of the group.
#[inline(always)]
pub(super) fn members(part: &Part, record: Record) -> Offsets {
    match record.is_approximate() {
        true => owned(part, record),
        false => record.exact_members(),
    }
}

/// The offsets that an approximate record owns. Not inlined, as exact records are to be
/// handled without it.
#[inline(never)]
fn owned(part: &Part, record: Record) -> Offsets {
    let name = name(record.start);
    chosen(part, record.start, record.last(), |owner| owner == name)
}

/// The offsets that any record owns, of those around `first` to `last`: outside them
/// none is owned.
pub(super) fn owned_offsets(part: &Part, first: u8, last: u8) -> Offsets {
    chosen(part, first, last, |owner| owner != NOBODY)
}

/// The offsets whose owner is chosen, of those around `first` to `last`.
#[inline(always)]
fn chosen(part: &Part, first: u8, last: u8, choose: impl Fn(Owner) -> bool) -> Offsets {
    let (parts, _) = owners(part).as_chunks();
    let mut words = [0; 4];
    let covered = usize::from(first / 64)..=usize::from(last / 64);
    for (word, part) in words[covered.clone()].iter_mut().zip(&parts[covered]) {
        *word = chosen_bits(part, &choose);
    }
    Offsets::from_words(words)
}

/// Which of 64 offsets have an owner that is chosen, a bit each.
#[inline(always)]
fn chosen_bits(owners: &[Owner; 64], choose: impl Fn(Owner) -> bool) -> u64 {
    let equal: [u8; 64] = std::array::from_fn(|at| u8::from(choose(owners[at])));
    let (parts, _) = equal.as_chunks::<8>();
    parts.iter().rev().fold(0, |bits, &part| {
        // Eight bytes that are 0 or 1 become eight bits.
        let gathered = u64::from_le_bytes(part).wrapping_mul(0x0102_0408_1020_4080) >> 56;
        bits << 8 | gathered
    })
}

/// What is left of an approximate record when it loses offsets that no record gets.
pub(super) fn disown(part: &mut Part, record: Record, lost: Offsets) -> Option<Record> {
    let members = owned(part, record);
    set_owners(part, members & lost, NOBODY);
    let left = rename(part, record, members.without(lost));
    if left.is_none() && owners(part).iter().all(|&owner| owner == NOBODY) {
        set_owned(part, false);
    }
    left
}

/// What is left of an approximate record with these members; if its start is another
/// one, they get that as their owner.
fn rename(part: &mut Part, record: Record, members: Offsets) -> Option<Record> {
    let left = record.narrowed(members)?;
    if left.start != record.start {
        set_owners(part, members, name(left.start));
    }
    Some(left)
}

/// Every approximate record gives up these offsets, which a new one is to own; it
/// shrinks or goes, and a level other than 0 that is left empty goes too. The
/// offsets' own owners stay to be overwritten.
pub(super) fn give_up(part: &mut Part, taken: Offsets) {
    if !is_owned(part) {
        return;
    }
    // Which owners lose, and how many of them are still to be found.
    let mut losing = [false; 257];
    losing[0] = true;
    let mut count = 0;
    for offset in taken.iter() {
        let owner = u16::from_le_bytes(owners(part)[usize::from(offset)]);
        let known = std::mem::replace(&mut losing[usize::from(owner).min(256)], true);
        count += usize::from(!known);
    }
    losing[0] = false;
    let mut at = 0;
    while count > 0 {
        let held = record(&slots(part)[at]);
        // One branch for both: which kind of slot comes next is hard to predict.
        let owner = (usize::from(held.start) + 1) * usize::from(held.word % 2);
        if !losing[owner] {
            at += 1;
            continue;
        }
        count -= 1;
        let remaining = owned(part, held).without(taken);
        match rename(part, held, remaining) {
            Some(left) => {
                let slot = &mut slots_mut(part)[at];
                (slot[0], slot[1]) = (left.start, left.span);
                at += 1;
            }
            None => remove(part, at),
        }
    }
}

/// Takes a slot out, and its level if that is not 0 and has no other.
fn remove(part: &mut Part, at: usize) {
    let used = records(part);
    let slots = &mut slots_mut(part)[..used];
    let own = level(&slots[at]);
    let has_level = |at: usize| slots.get(at).is_some_and(|slot| level(slot) == own);
    let has_other = at.checked_sub(1).is_some_and(has_level) || has_level(at + 1);
    if own > 0 && !has_other {
        for slot in &mut slots[at + 1..] {
            set_level(slot, level(slot) - 1);
        }
    }
    slots.copy_within(at + 1.., at);
    set_records(part, used - 1);
}

/// Makes the approximate record with this start the owner of offsets.
pub(super) fn own(part: &mut Part, offsets: Offsets, start: u8) {
    if !is_owned(part) {
        *owners_mut(part) = [NOBODY; 256];
        set_owned(part, true);
    }
    set_owners(part, offsets, name(start));
}

/// Gives offsets an owner.
fn set_owners(part: &mut Part, offsets: Offsets, owner: Owner) {
    let owners = owners_mut(part);
    for offset in offsets.iter() {
        owners[usize::from(offset)] = owner;
    }
}
