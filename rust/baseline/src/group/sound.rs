//! Whether a group's bytes are sound.

use hedjosur_layout::Part;
use hedjosur_model::levels::GROUP_RECORDS;

use super::part::{is_owned, level, name, owners, records, slots, Owner, Owners, Slot, NOBODY};
use crate::offsets::Offsets;
use crate::words;

/// Whether any bytes are a sound group's, of group `number` of a device with
/// `logical_pages`.
pub fn sound(part: &Part, logical_pages: u32, number: u32) -> bool {
    let used = records(part);
    if used > GROUP_RECORDS {
        return false;
    }
    let offsets = logical_pages.saturating_sub(256 * number).min(256);
    let slots = &slots(part)[..used];
    match is_owned(part) {
        false => sound_without_owners(slots, offsets),
        true => sound_with_owners(slots, owners(part), offsets),
    }
}

/// Whether slots are sound where nothing is owned: no record is approximate.
fn sound_without_owners(slots: &[Slot], offsets: u32) -> bool {
    let mut checks = Checks::new(offsets);
    all(slots, |slot| checks.check(slot)) && checks.words_fit() && checks.words % 2 == 0
}

/// Whether slots are sound and the owners fit them.
fn sound_with_owners(slots: &[Slot], owners: &Owners, offsets: u32) -> bool {
    let mut checks = Checks::new(offsets);
    // The ranges of the approximate records, collected without a branch.
    let mut ranges = [[0; 2]; 256];
    let mut count = 0;
    let in_order = all(slots, |slot| {
        ranges[count % 256] = [slot[0], slot[1]];
        count += usize::from(slot[2] % 2);
        checks.check(slot)
    });
    in_order && checks.words_fit() && count <= 256 && owners_fit(&ranges[..count], owners)
}

/// Whether all slots pass a check: four in a step of the loop, which the compiler
/// doesn't do here by itself.
#[inline(always)]
fn all(slots: &[Slot], mut check: impl FnMut(&Slot) -> bool) -> bool {
    let (fours, rest) = slots.as_chunks::<4>();
    let in_fours = fours.iter().all(|four| four.iter().all(&mut check));
    in_fours && rest.iter().all(check)
}

/// Whether approximate records, each with its start and span, are the only ones with
/// their starts and own their ends, and no offset has an owner but in the range of the
/// record that it names: as many offsets are owned there as anywhere.
fn owners_fit(ranges: &[[u8; 2]], owners: &Owners) -> bool {
    let mut starts = Offsets::NONE;
    let mut named = 0;
    for &[start, span] in ranges {
        let name = name(start);
        let (first, last) = (usize::from(start), usize::from(start + span));
        if starts.contains(start) | (owners[first] != name) | (owners[last] != name) {
            return false;
        }
        starts.insert(start);
        named += match usize::from(span) {
            ..LANES => count_in_one(owners, first, span.into(), name),
            _ => count(&owners[first..=last], |owner| owner == name),
        };
    }
    named == count(owners, |owner| owner != NOBODY)
}

/// How many owners a condition holds for.
#[inline]
fn count(owners: &[Owner], holds: impl Fn(Owner) -> bool) -> u16 {
    owners
        .iter()
        .fold(0, |count, &owner| count + u16::from(holds(owner)))
}

/// How many owners are counted together.
const LANES: usize = 16;

/// How many of the owners from `first` on, less than [`LANES`] more than one, have this
/// name: as many are always looked at, as the length of short ranges is hard to
/// predict.
#[inline]
fn count_in_one(owners: &Owners, first: usize, span: u16, name: Owner) -> u16 {
    let from = first.min(owners.len() - LANES);
    let window = owners[from..].iter().zip(0..LANES as u16);
    let skipped = (first - from) as u16;
    window.fold(0, |count, (&owner, lane)| {
        let inside = lane.wrapping_sub(skipped) <= span;
        count + u16::from(inside & (owner == name))
    })
}

/// What is checked of each slot and of its order. Of a sound group no check fails, so
/// that these branches are all guessed right; there is none for the kind of record,
/// which is hard to predict.
struct Checks {
    /// All words, bit by bit.
    words: i32,
    /// The last place taken; places are numbered through the levels, 256 each.
    taken: i32,
    /// The level that may come next.
    next_level: i32,
    /// How many offsets the group has.
    offsets: i32,
}

impl Checks {
    fn new(offsets: u32) -> Checks {
        Checks {
            words: 0,
            taken: -1,
            next_level: 0,
            offsets: offsets as i32,
        }
    }

    /// Whether a slot may stand behind those before it.
    #[inline(always)]
    fn check(&mut self, slot: &Slot) -> bool {
        let [start, span] = [slot[0], slot[1]].map(i32::from);
        let word = i32::from(u16::from_le_bytes([slot[2], slot[3]]));
        let level = i32::from(level(slot));
        let place = 256 * level + start;
        let passes = place > self.taken
            && level <= self.next_level
            && start + span < self.offsets
            && words::excess(word, span) < 0;
        self.words |= word;
        self.taken = place + span;
        self.next_level = level + 1;
        passes
    }

    /// Whether no word is above all that are tabled.
    fn words_fit(&self) -> bool {
        self.words < 1024
    }
}
