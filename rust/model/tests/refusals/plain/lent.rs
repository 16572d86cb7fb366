//! Plain states of any kind.

use hedjosur_model::plain::{Lent, NOT_WRITTEN};
use hedjosur_model::testing::{full_device, small_device, sound_plain_state, Random};

/// A state of any kind: sound, then perhaps made wrong in one way or a few.
pub fn any_lent(random: &mut Random) -> Lent {
    let device = match random.once_in(20) {
        true => full_device(random.between(130, 134), 4, random.below(3)),
        false => small_device(random),
    };
    let mut lent = Lent::Held(sound_plain_state(random, &device));
    while random.once_in(2) {
        if lent == Lent::Short {
            break;
        }
        make_wrong(random, &mut lent);
    }
    lent
}

/// Changes one thing: a number, a length, the counts or an entry.
fn make_wrong(random: &mut Random, lent: &mut Lent) {
    let state = lent.held_mut();
    let block = random.bits() as usize % state.counts.len().max(1);
    let entry = random.bits() as usize % state.entries.len().max(1);
    let pages = state.numbers[0].saturating_mul(state.numbers[1]);
    match random.below(15) {
        0 => *lent = Lent::Short,
        1 => state.numbers[random.below(4) as usize] = random.pick(&[0, 2, 17, 300, u32::MAX]),
        // Another device: the lengths are wrong now, or entries are.
        2 => {
            let number = &mut state.numbers[random.below(3) as usize];
            *number = number.saturating_add(1);
        }
        3 => {
            let half = (state.numbers[2] / 2).max(1);
            state.numbers[2] = half;
            state.entries.truncate(half as usize);
        }
        4 => state.counts.truncate(state.counts.len().saturating_sub(1)),
        5 => state.counts.push(0),
        6 => state
            .entries
            .truncate(state.entries.len().saturating_sub(1)),
        7 => state.entries.push(NOT_WRITTEN),
        8 if !state.counts.is_empty() => state.counts[block] = state.numbers[1].saturating_add(1),
        // Entries of this block may be beyond its count now.
        9 if !state.counts.is_empty() => {
            state.counts[block] = state.counts[block].saturating_sub(1);
        }
        10 => state
            .counts
            .iter_mut()
            .for_each(|count| *count = 1.max(*count)),
        11 => state.entries.fill(NOT_WRITTEN),
        12 if !state.entries.is_empty() => state.entries[entry] = state.entries[0],
        13 if !state.entries.is_empty() => {
            state.entries[entry] = random.below(pages.saturating_add(1).max(1));
        }
        _ if !state.entries.is_empty() => {
            state.entries[entry] = random.pick(&[NOT_WRITTEN - 1, NOT_WRITTEN, pages]);
        }
        _ => {}
    }
}
