//! The plain engine's soundness on devices of all sizes: an implementation may keep
//! its notes on pages in arrays of several lengths.

use hedjosur_layout::encode_plain_state;
use hedjosur_model::device::Device;
use hedjosur_model::ops::Refusal;
use hedjosur_model::plain::State;
use hedjosur_model::testing::{batch, full_device, lists, rounds, Random};

use crate::answers::Answers;
use crate::calls::PlainCalls;
use crate::plain::beside::Beside;
use crate::steps::Writer;

/// The model looks at every entry for every block; a collection of a larger device would
/// take it too long.
const COLLECTED: u64 = 1 << 25;

/// Devices of as many pages as each power of two from 2^10 on, and of one block more:
/// flushes and collections, accepted and refused 3 for what the last page's entry says.
pub fn check_sizes(calls: &impl PlainCalls) {
    let mut answers = Answers::default();
    rounds(1, &mut answers, |random, log, answers| {
        for device in devices() {
            let beside = &mut Beside::new(calls, log, answers);
            let sound = filled(random, &device);
            let batch = batch(random, &device);
            let [mut plan, mut erased] = lists(&device);
            beside.lend(encode_plain_state(&sound));
            beside.lookup_all();
            assert!(beside.flush(&batch, &mut plan).is_ok());
            if u64::from(device.blocks) * u64::from(device.logical_pages) <= COLLECTED {
                beside.lend(encode_plain_state(&sound));
                let _ = beside.collect(&mut plan, &mut erased);
                beside.lookup_all();
            }
            for damage in DAMAGES {
                let mut damaged = sound.clone();
                damage(&mut damaged, &device);
                beside.lend(encode_plain_state(&damaged));
                let refused = Some(Refusal::NotSound);
                assert_eq!(beside.flush(&batch, &mut plan).err(), refused);
                assert_eq!(beside.collect(&mut plan, &mut erased).err(), refused);
            }
        }
    });
    assert_eq!(answers.met("flush"), [0, 3]);
    assert_eq!(answers.met("collect"), [0, 3, 8]);
    answers.tell("plain: devices of all sizes", 1_900_000);
}

/// Devices with large blocks, and with many small ones.
fn devices() -> impl Iterator<Item = Device> {
    let sizes = (10..=20).flat_map(|power| [256, 16].map(|block_pages| (power, block_pages)));
    sizes.flat_map(|(power, block_pages)| {
        let blocks = (1 << power) / block_pages;
        let blocks = [blocks, blocks + 1].into_iter();
        let blocks = blocks.filter(|&blocks| blocks <= 4096);
        blocks.map(move |blocks| full_device(blocks, block_pages, 0))
    })
}

/// A sound state in which all blocks but two are full and every logical page is written,
/// the last one on the last page.
fn filled(random: &mut Random, device: &Device) -> State {
    let mut counts = vec![device.block_pages; device.blocks as usize];
    counts[1..3].fill(0);
    let used = device.block_pages * 3..device.pages() - 1;
    let mut entries: Vec<u32> = (0..device.block_pages).chain(used).collect();
    random.shuffle(&mut entries);
    entries.truncate(device.logical_pages as usize - 1);
    entries.push(device.pages() - 1);
    State {
        numbers: device.numbers(),
        counts,
        entries,
    }
}

/// The last page is named twice, or isn't written, or is one that doesn't exist.
const DAMAGES: [fn(&mut State, &Device); 4] = [
    |state, device| state.entries[0] = device.pages() - 1,
    |state, device| state.counts[device.blocks as usize - 1] = device.block_pages - 1,
    |state, device| state.entries[device.logical_pages as usize - 1] = device.pages(),
    |state, device| state.entries[0] = device.pages().next_power_of_two(),
];
