//! Inserting records at level 0, and taking in a batch's records.

use std::ops::Range;

use hedjosur_layout::{Part, SLOT_BYTES};
use hedjosur_model::levels::GROUP_RECORDS;

use super::compact::compact;
use super::owners::{disown, give_up, own};
use super::part::{
    is_owned, level, record, records, set_level, set_records, slot, slots, slots_mut, used_slots,
    Slot,
};
use crate::learn::Run;
use crate::offsets::Offsets;
use crate::record::Record;

/// The most slots of a level: their ranges don't meet.
const LEVEL_SLOTS: usize = 256;

/// So many slots are rewritten where one record is inserted, mostly.
const FEW: usize = 8;

/// And so many for a part of a batch.
const SOME: usize = 48;

/// Takes in a batch's runs for this group, ascending; the group is compacted first if
/// it has no room for them.
pub fn take(part: &mut Part, runs: &[Run], members: impl Fn(&Run) -> Offsets) {
    if records(part) + runs.len() > GROUP_RECORDS {
        compact(part);
    }
    let is_approximate = |run: &Run| run.record.is_approximate();
    if !is_owned(part) || !runs.iter().any(is_approximate) {
        insert_all(part, 0, runs, members);
        return;
    }
    // What one of them makes others give up has to be gone when the next comes.
    let mut from = 0;
    for run in runs {
        let taken = members(run);
        if is_approximate(run) {
            give_up(part, taken);
        }
        from = insert_all(part, from, std::slice::from_ref(run), |_| taken);
    }
}

/// Inserts a record with its members into a group of fewer than 512 records.
pub fn insert(part: &mut Part, record: Record, members: Offsets) {
    let run = Run {
        record,
        ..Run::default()
    };
    take(part, &[run], |_| members);
}

/// Inserts runs, ascending, at level 0; no approximate record owns what they take. The
/// slots before `from` are of level 0 and end before them. Answers the place behind the
/// last of them.
fn insert_all(
    part: &mut Part,
    from: usize,
    runs: &[Run],
    members: impl Fn(&Run) -> Offsets,
) -> usize {
    let [first, ..] = runs else {
        return from;
    };
    let (start, last) = (first.record.start, runs[runs.len() - 1].record.last());
    let slots = used_slots(part);
    let is_before = |slot: &Slot| level(slot) == 0 && record(slot).last() < start;
    let is_met = |slot: &Slot| level(slot) == 0 && slot[0] <= last;
    let from = from + slots[from..].partition_point(is_before);
    let met = match runs.len() {
        1 => slots[from..].iter().take_while(|slot| is_met(slot)).count(),
        _ => slots[from..].partition_point(is_met),
    };
    let places = from..from + met;
    match met + runs.len() {
        _ if met == 0 => add(part, from, runs, members),
        rewritten if rewritten <= FEW => rewrite::<FEW>(part, places, runs, members),
        rewritten if rewritten <= SOME => rewrite::<SOME>(part, places, runs, members),
        _ => rewrite::<LEVEL_SLOTS>(part, places, runs, members),
    }
}

/// Inserts runs that meet no slot of level 0, at their place there. Answers the place
/// behind them.
fn add(part: &mut Part, at: usize, runs: &[Run], members: impl Fn(&Run) -> Offsets) -> usize {
    let (used, end) = (records(part), at + runs.len());
    slots_mut(part).copy_within(at..used, end);
    for (run, at) in runs.iter().zip(at..) {
        slots_mut(part)[at] = slot(run.record, 0);
        if run.record.is_approximate() {
            own(part, members(run), run.record.start);
        }
    }
    set_records(part, used + runs.len());
    end
}

/// Inserts runs that meet no slots of level 0 but these. Answers the place behind the
/// last of them.
fn rewrite<const ROOM: usize>(
    part: &mut Part,
    places: Range<usize>,
    runs: &[Run],
    members: impl Fn(&Run) -> Offsets,
) -> usize {
    let mut staying = List::<ROOM>::new();
    let mut sinking = List::<ROOM>::new();
    let mut next = places.start;
    // What is left of a victim behind the record that took from it.
    let mut behind = None;
    for run in runs {
        let new = run.record;
        let taken = members(run);
        while behind.is_some() || next < places.end {
            let old = behind.take().unwrap_or_else(|| {
                next += 1;
                slots(part)[next - 1]
            });
            if old[0] > new.last() {
                behind = Some(old);
                break;
            }
            if record(&old).last() < new.start {
                staying.push(old);
                continue;
            }
            match left_of(part, record(&old), new, taken) {
                Some(left) if left.last() < new.start => staying.push(slot(left, 0)),
                Some(left) if left.start > new.last() => behind = Some(slot(left, 0)),
                Some(left) => sinking.push(slot(left, 1)),
                None => {}
            }
        }
        staying.push(slot(new, 0));
        if new.is_approximate() {
            own(part, taken, new.start);
        }
    }
    let end = places.start + staying.count;
    behind.into_iter().for_each(|old| staying.push(old));
    put_back(part, places, staying.as_slice(), sinking.as_slice());
    end
}

/// What is left of a slot's record when a new one takes these offsets.
#[inline]
fn left_of(part: &mut Part, victim: Record, new: Record, taken: Offsets) -> Option<Record> {
    match victim.is_approximate() {
        false => victim.narrowed(victim.exact_members().without(taken)),
        // It gave them up.
        true if new.is_approximate() => Some(victim),
        true => disown(part, victim, taken),
    }
}

/// Replaces slots of level 0 by others that stay there and some that sink; each of the
/// parts behind them moves once.
fn put_back(part: &mut Part, places: Range<usize>, staying: &[Slot], sinking: &[Slot]) {
    let used = records(part);
    let slots = slots_mut(part);
    let to = places.start + staying.len();
    let top = match sinking {
        [] => used,
        _ => places.end + slots[places.end..used].partition_point(|slot| level(slot) == 0),
    };
    let top_after = top + to - places.end;
    let below = top_after + sinking.len();
    // What moves up goes first.
    if below > top {
        slots.copy_within(top..used, below);
    }
    if to != places.end {
        slots.copy_within(places.end..top, to);
    }
    if below < top {
        slots.copy_within(top..used, below);
    }
    slots[places.start..to].copy_from_slice(staying);
    let used = used + below - top;
    settle(&mut slots[top_after..used], sinking);
    set_records(part, used);
}

/// Puts slots that sink, ascending, among those of level 1 and below, which stand
/// behind as many free ones. They join level 1 up to the first that meets something
/// there; that one opens a level between, and the rest join it there, because records
/// that shared a level don't meet each other.
fn settle(slots: &mut [Slot], sinking: &[Slot]) {
    let mut next = sinking.len();
    let joins = |slot: &&Slot| {
        next += ending_before(&slots[next..], slot);
        let is_met = |next: &Slot| level(next) == 1 && next[0] <= record(slot).last();
        !slots.get(next).is_some_and(is_met)
    };
    let joining = sinking.iter().take_while(joins).count();
    let (joining, opening) = sinking.split_at(joining);
    let (opened, slots) = slots.split_at_mut(opening.len());
    opened.copy_from_slice(opening);
    let (mut from, mut to) = (joining.len(), 0);
    for slot in joining {
        let passed = ending_before(&slots[from..], slot);
        slots.copy_within(from..from + passed, to);
        slots[to + passed] = *slot;
        (from, to) = (from + passed, to + passed + 1);
    }
    if !opened.is_empty() {
        for slot in slots {
            set_level(slot, level(slot) + 1);
        }
    }
}

/// How many of these slots, from the left, are of level 1 and end before another.
#[inline]
fn ending_before(slots: &[Slot], other: &Slot) -> usize {
    slots.partition_point(|slot| level(slot) == 1 && record(slot).last() < other[0])
}

/// A list of at most so many slots.
struct List<const ROOM: usize> {
    slots: [Slot; ROOM],
    count: usize,
}

impl<const ROOM: usize> List<ROOM> {
    fn new() -> List<ROOM> {
        List {
            slots: [[0; SLOT_BYTES]; ROOM],
            count: 0,
        }
    }

    #[inline]
    fn push(&mut self, slot: Slot) {
        self.slots[self.count] = slot;
        self.count += 1;
    }

    fn as_slice(&self) -> &[Slot] {
        &self.slots[..self.count]
    }
}
