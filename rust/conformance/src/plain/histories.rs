//! Lists of the plain engine's calls that start with a format: document 01's cases,
//! and random ones.

use hedjosur_model::cases::cases;
use hedjosur_model::device::Device;
use hedjosur_model::plain::state_bytes;
use hedjosur_model::script::{Answer, Line};
use hedjosur_model::testing::{
    any_list, any_logical_page, batch, full_device, multiplier, perhaps_wrong, rounds,
    small_device, CallLog, Random,
};

use crate::answers::Answers;
use crate::arguments::any_numbers;
use crate::calls::PlainCalls;
use crate::histories::devices_alike;
use crate::plain::beside::Beside;
use crate::steps::{discard_some, flush_by_any_means, Writer};

/// Every case of document 01, without the calls that the plain engine hasn't: the
/// pages, plans, erased lists and refusals that the document gives.
pub fn check_cases(calls: &impl PlainCalls) {
    let mut answers = Answers::default();
    for case in cases() {
        let log = &mut CallLog::new(0);
        let beside = &mut Beside::new(calls, log, &mut answers);
        let mut lengths = [0; 2];
        for (line, answer) in &case.calls {
            let refusal = match answer {
                Answer::Refused(refusal) => Some(*refusal),
                _ => None,
            };
            let [mut plan, mut erased] = lengths.map(|length| vec![777_777; length]);
            let refused = match line {
                Line::Format(numbers) => {
                    if let Some(device) = Device::new(*numbers) {
                        lengths = [device.block_pages, device.blocks].map(|n| n as usize);
                        beside.lend(vec![0xA5; state_bytes(*numbers)]);
                    }
                    beside.format(*numbers).err()
                }
                Line::Flush(batch) => {
                    let flushed = beside.flush(batch, &mut plan);
                    if let Ok(flushed) = flushed {
                        plan.truncate(flushed.count as usize);
                        assert_eq!(answer, &Answer::Flushed(flushed, plan), "{}", case.name);
                    }
                    flushed.err()
                }
                Line::Lookup(logical_page) => {
                    let found = beside.lookup(*logical_page);
                    if let Answer::Lookup(lookup) = answer {
                        assert_eq!(found, Ok(lookup.page()), "{}", case.name);
                    }
                    found.err()
                }
                Line::Collection => {
                    let collected = beside.collect(&mut plan, &mut erased);
                    if let Ok(collected) = collected {
                        plan.truncate(collected.count as usize);
                        erased.truncate(collected.erased as usize);
                        let made = Answer::Collected(collected, [plan, erased]);
                        assert_eq!(answer, &made, "{}", case.name);
                    }
                    collected.err()
                }
                Line::Compaction(_) | Line::List(_) => continue,
            };
            assert_eq!(refused, refusal, "{}: {line:?}", case.name);
        }
    }
    answers.tell("plain: document 01's cases", 70);
}

/// Random lists of calls, on states that held anything before the format: at least 50 a
/// round. Several devices are formatted, one after the other, in a state that has the
/// right length for each. At the end every logical page is looked up.
pub fn check_histories(calls: &impl PlainCalls, base: u64) {
    let alike = devices_alike(|device| state_bytes(device.numbers()));
    let mut counts = (Answers::default(), 0);
    rounds(base, &mut counts, |random, log, (answers, emptied)| {
        let devices = match random.below(6) {
            0 => vec![full_device(random.between(4, 9), 64, random.below(16))],
            1 => vec![full_device(random.between(3, 5), 256, random.below(16))],
            2 | 3 => vec![small_device(random)],
            _ => alike[random.below(alike.len() as u32) as usize].clone(),
        };
        let beside = &mut Beside::new(calls, log, answers);
        let length = state_bytes(devices[0].numbers());
        beside.lend((0..length).map(|_| random.bits() as u8).collect());
        for _ in 0..devices.len().min(3) {
            *emptied += history(beside, random.pick(&devices), random);
        }
    });
    let (answers, emptied) = counts;
    assert!(emptied > 0, "no collection had nothing to move");
    // From a format, 3 never occurs, nor does 6 in a collection.
    assert_eq!(answers.met("format"), [0, 1, 2]);
    assert_eq!(answers.met("flush"), [0, 2, 4, 5, 6]);
    assert_eq!(answers.met("lookup"), [0, 4]);
    assert_eq!(answers.met("discard"), [0, 4]);
    assert_eq!(answers.met("collect"), [0, 2, 8]);
    answers.tell("plain: histories", 50 * (base * multiplier()) as usize);
}

/// A format and calls of all kinds. Answers how many collections had nothing to move.
fn history<C: PlainCalls>(
    beside: &mut Beside<C>,
    mut device: Device,
    random: &mut Random,
) -> usize {
    assert_eq!(beside.format(device.numbers()), Ok(()));
    let mut emptied = 0;
    for _ in 0..40 {
        let (block_pages, logical_pages) = (device.block_pages, device.logical_pages);
        let mut plan = any_list(random, block_pages.into());
        match random.below(14) {
            0..=4 => flush_by_any_means(beside, &device, &batch(random, &device), |beside| {
                discard_some(beside, &device, random);
            }),
            5 | 6 => {
                let pages = batch(random, &device);
                let pages = perhaps_wrong(random, pages, block_pages, logical_pages);
                let _ = beside.flush(&pages, &mut plan);
            }
            7 | 8 => {
                let mut erased = any_list(random, device.blocks.into());
                let collected = beside.collect(&mut plan, &mut erased);
                emptied += usize::from(collected.is_ok_and(|collected| collected.count == 0));
            }
            9 => {
                // Accepted where it gives the same length.
                let numbers = any_numbers(random, &device);
                if beside.format(numbers).is_ok() {
                    device = Device::new(numbers).expect("numbers inside their limits");
                }
            }
            10 | 11 => discard_some(beside, &device, random),
            12 => drop(beside.discard(any_logical_page(random, logical_pages.into()))),
            _ => drop(beside.lookup(any_logical_page(random, logical_pages.into()))),
        }
    }
    beside.lookup_all();
    emptied
}
