//! States and spare areas of any kind.

use hedjosur_model::levels::Group;
use hedjosur_model::state::{Lent, State};
use hedjosur_model::testing::{
    any_area, full_device, small_device, sound_state, Random, World, SPOILERS,
};

/// A state and a spare area of any kind: lived in or arbitrary, then perhaps
/// made wrong in one way or a few.
pub fn any_world(random: &mut Random) -> World {
    let device = match random.once_in(20) {
        true => full_device(random.between(130, 134), 4, random.below(3)),
        false => small_device(random),
    };
    let mut world = match random.once_in(2) {
        true => World::lived_in(random, &device),
        false => World {
            lent: Lent::Held(sound_state(random, &device)),
            area: any_area(random, &device),
        },
    };
    while random.once_in(2) {
        if world.lent == Lent::Short {
            break;
        }
        make_wrong(random, &mut world);
    }
    world
}

/// Changes one thing: a number, a length, the counts, a group or an entry.
fn make_wrong(random: &mut Random, world: &mut World) {
    let change = random.below(18);
    let block = random.bits() as usize;
    let World { lent, area } = world;
    let Lent::Held(state) = lent else { return };
    let block = block % state.counts.len().max(1);
    match change {
        0 => *lent = Lent::Short,
        1 => state.numbers[random.below(4) as usize] = random.pick(&[0, 2, 17, 300, u32::MAX]),
        // Another device: the lengths are wrong now, or N cuts records off.
        2 => {
            let number = &mut state.numbers[random.below(3) as usize];
            *number = number.saturating_add(1);
        }
        3 => {
            let half = (state.numbers[2] / 2).max(1);
            state.numbers[2] = half;
            state.marks.truncate((half as usize).next_multiple_of(8));
        }
        4 => drop(state.counts.pop()),
        5 => state.counts.push(0),
        6 => state.groups.push(Group::default()),
        7 => state.marks.extend([false; 8]),
        8 => state.marks.truncate(state.marks.len().saturating_sub(8)),
        9 => drop(area.pop()),
        10 => area.push(0),
        11 if !state.counts.is_empty() => state.counts[block] = state.numbers[1].saturating_add(1),
        12 => state
            .counts
            .iter_mut()
            .for_each(|count| *count = 1.max(*count)),
        13 => state.counts.fill(0),
        14 if !area.is_empty() => {
            let entry = random.below(area.len() as u32) as usize;
            area[entry] = random.below(state.numbers[2].max(1));
        }
        _ => spoil(random, state),
    }
}

/// Breaks a clause of soundness in one group.
pub fn spoil(random: &mut Random, state: &mut State) {
    let number = random.below(state.groups.len() as u32) as usize;
    let logical_pages = state.numbers[2].saturating_sub(256 * number as u32);
    let last = logical_pages.clamp(1, 256) - 1;
    let spoiler = random.pick(SPOILERS);
    (spoiler.spoil)(&mut state.groups[number], last as u8);
}

/// The marks of a state, with the bits behind the last one.
pub fn marks(world: &World) -> &[bool] {
    let (_, state) = world.lent.open().expect("a state");
    &state.marks
}
