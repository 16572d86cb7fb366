//! States of the plain engine of any kind.

use hedjosur_layout::encode_plain_state;
use hedjosur_model::device::Device;
use hedjosur_model::plain::{State, NOT_WRITTEN};
use hedjosur_model::testing::{sound_plain_state, Random};

use crate::arguments::{any_numbers, resize};

/// Any state of a device: sound or damaged, mostly of the right length.
pub fn arbitrary(random: &mut Random, device: &Device) -> Vec<u8> {
    let mut state = sound_plain_state(random, device);
    match random.below(6) {
        // No block is free, or none is used.
        0 => state.counts.iter_mut().for_each(|c| *c = 1.max(*c)),
        1 => {
            state.counts.fill(0);
            state.entries.fill(NOT_WRITTEN);
        }
        // Few pages are valid.
        2 => state
            .entries
            .iter_mut()
            .filter(|_| !random.once_in(4))
            .for_each(|entry| *entry = NOT_WRITTEN),
        _ => {}
    }
    while random.once_in(3) {
        damage(random, device, &mut state);
    }
    if random.once_in(12) {
        state.numbers = any_numbers(random, device);
    }
    let mut bytes = encode_plain_state(&state);
    if random.once_in(16) {
        let at = random.below(bytes.len() as u32) as usize;
        bytes[at] = random.bits() as u8;
    }
    resize(random, &mut bytes);
    bytes
}

/// Changes an entry or a count, so that each clause of soundness breaks now and then,
/// and now and then none.
fn damage(random: &mut Random, device: &Device, state: &mut State) {
    let block = random.below(device.blocks);
    let [one, other] = [0; 2].map(|_| random.below(device.logical_pages) as usize);
    let (first, pages) = (block * device.block_pages, device.pages());
    let count = &mut state.counts[block as usize];
    let entry = &mut state.entries[one];
    match random.below(9) {
        // At its block's count, or behind it.
        0 => *entry = first + *count,
        1 => *entry = first + *count + random.below(device.block_pages),
        // Outside the device, or a page with other high bits.
        2 => *entry = pages + random.below(3),
        3 => *entry = random.pick(&[1 << 31, NOT_WRITTEN - pages, NOT_WRITTEN - 1, NOT_WRITTEN]),
        4 => *entry = entry.wrapping_add(random.pick(&[1 << 16, 1 << 20, 1 << 24, 1 << 31])),
        5 => *entry = random.below(pages),
        // Perhaps one page twice.
        6 => state.entries[one] = state.entries[other],
        7 => *count = count.saturating_sub(1),
        _ => *count = random.pick(&[device.block_pages, 256, 257, 65_535, device.block_pages + 1]),
    }
}
