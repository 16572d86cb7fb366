//! Single calls of the plain engine: on arbitrary states, with wrong lengths, and with
//! numbers at and past their limits.

use hedjosur_layout::{encode_state, state_bytes as learned_bytes, HEAD_BYTES};
use hedjosur_model::device::Device;
use hedjosur_model::ops::Refusal;
use hedjosur_model::plain::state_bytes;
use hedjosur_model::state::State as LearnedState;
use hedjosur_model::testing::{
    any_list, any_logical_page, batch, full_device, lists, multiplier, perhaps_wrong, rounds,
    small_device, CallLog,
};

use crate::answers::Answers;
use crate::arguments::{
    any_numbers, batches_at_limits, lengths_around, numbers_at_limits, uneven_device, FAR,
};
use crate::calls::PlainCalls;
use crate::plain::beside::Beside;
use crate::plain::states::arbitrary;
use crate::steps::Writer;

/// Calls of each kind on arbitrary states, sound or damaged, with arguments and
/// lengths of all kinds: at least 60 a round. Each answer that there is comes.
pub fn check_arbitrary_states(calls: &impl PlainCalls, base: u64) {
    let mut counts = (Answers::default(), 0);
    rounds(base, &mut counts, |random, log, (answers, emptied)| {
        let device = match random.once_in(12) {
            true => full_device(random.between(3, 7), 256, random.below(16)),
            false => small_device(random),
        };
        let (block_pages, logical_pages) = (device.block_pages, device.logical_pages);
        let beside = &mut Beside::new(calls, log, answers);
        for call in 0..8 {
            beside.lend(arbitrary(random, &device));
            let plan = &mut any_list(random, block_pages.into());
            match call {
                0 => drop(beside.format(any_numbers(random, &device))),
                1..=3 => {
                    let pages = batch(random, &device);
                    let pages = perhaps_wrong(random, pages, block_pages, logical_pages);
                    let _ = beside.flush(&pages, plan);
                }
                4 => {
                    for _ in 0..5 {
                        let _ = beside.discard(any_logical_page(random, logical_pages.into()));
                    }
                }
                _ => {
                    let erased = &mut any_list(random, device.blocks.into());
                    let collected = beside.collect(plan, erased);
                    *emptied += usize::from(collected.is_ok_and(|collected| collected.count == 0));
                }
            }
            beside.lookup_all();
            let _ = beside.lookup(any_logical_page(random, logical_pages.into()));
        }
    });
    let (answers, emptied) = counts;
    assert!(emptied > 0, "no collection had nothing to move");
    assert_eq!(answers.met("format"), [0, 1, 2]);
    assert_eq!(answers.met("flush"), [0, 1, 2, 3, 4, 5, 6]);
    assert_eq!(answers.met("lookup"), [0, 1, 2, 3, 4]);
    assert_eq!(answers.met("discard"), [0, 1, 2, 3, 4]);
    assert_eq!(answers.met("collect"), [0, 1, 2, 3, 6, 8]);
    answers.tell(
        "plain: arbitrary states",
        60 * (base * multiplier()) as usize,
    );
}

/// Every call with each of its slices in turn at lengths around the right one, and with
/// the learned engine's state, on new and on used devices.
pub fn check_wrong_lengths(calls: &impl PlainCalls) {
    let mut answers = Answers::default();
    rounds(20, &mut answers, |random, log, answers| {
        let device = match random.once_in(2) {
            true => uneven_device(random),
            false => small_device(random),
        };
        let beside = &mut Beside::new(calls, log, answers);
        let length = state_bytes(device.numbers());
        beside.lend(vec![0; length]);
        assert_eq!(beside.format(device.numbers()), Ok(()));
        for _ in 0..random.below(4) {
            let [mut plan, _] = lists(&device);
            let _ = beside.flush(&batch(random, &device), &mut plan);
        }
        let bytes = beside.lent();
        let right = [device.block_pages, device.blocks].map(|length| length as usize);
        let learned = learned_bytes(&device);
        let near = [length - 4, length - 2, length + 2, length + 4, learned];
        for length in lengths_around(length).into_iter().chain(near) {
            let mut bytes = bytes.clone();
            bytes.resize(length, 0);
            one_of_each(beside, &device, bytes, right);
        }
        let learned = encode_state(&LearnedState::formatted(&device), || 0);
        let learned = learned.expect("a state with bytes");
        one_of_each(beside, &device, learned, right);
        for list in 0..right.len() {
            for length in lengths_around(right[list]) {
                let mut lengths = right;
                lengths[list] = length;
                one_of_each(beside, &device, bytes.clone(), lengths);
            }
        }
    });
    assert_eq!(answers.met("format"), [0, 2]);
    assert_eq!(answers.met("lookup"), [0, 1, 2]);
    assert_eq!(answers.met("discard"), [0, 1, 2]);
    assert_eq!(answers.met("flush"), [0, 1, 2, 6]);
    assert_eq!(answers.met("collect"), [0, 1, 2, 8]);
    answers.tell("plain: wrong lengths", 3300 * multiplier() as usize);
}

/// One call of each kind on the same state, with a plan and an erased list of these
/// lengths.
fn one_of_each<C: PlainCalls>(
    beside: &mut Beside<C>,
    device: &Device,
    bytes: Vec<u8>,
    [plan, erased]: [usize; 2],
) {
    let (mut plan, mut erased) = (vec![777_777; plan], vec![888_888; erased]);
    let last = device.logical_pages - 1;
    beside.lend(bytes.clone());
    let _ = beside.lookup(last);
    let _ = beside.discard(last);
    let _ = beside.flush(&[last, 0], &mut plan);
    beside.lend(bytes.clone());
    let _ = beside.collect(&mut plan, &mut erased);
    beside.lend(bytes);
    let _ = beside.format(device.numbers());
}

/// Every number of a device at and past its limits, alone and together: the length, a
/// format, and the other calls on a state that has these numbers.
pub fn check_limits(calls: &impl PlainCalls) {
    let mut answers = Answers::default();
    let smallest = full_device(3, 4, 0);
    for numbers in numbers_at_limits() {
        let device = Device::new(numbers);
        let expected = device.map(|_| state_bytes(numbers));
        assert_eq!(calls.length(numbers), expected, "{numbers:?}");
        let outside = Err(Refusal::BadNumbers);
        answers.count("state_len", &expected.map_or(outside, |_| Ok(())));
        // A state that fits, where the numbers give a small one.
        let small = expected.filter(|&length| length <= 1 << 16);
        let length = small.unwrap_or(state_bytes(smallest.numbers()));
        let mut bytes = vec![0; length];
        for (to, number) in bytes[..HEAD_BYTES].chunks_mut(4).zip(numbers) {
            to.copy_from_slice(&number.to_le_bytes());
        }
        let log = &mut CallLog::new(0);
        let beside = &mut Beside::new(calls, log, &mut answers);
        beside.lend(bytes.clone());
        let formatted = beside.format(numbers);
        assert_eq!(formatted == outside, device.is_none(), "{numbers:?}");
        assert_eq!(formatted.is_ok(), small.is_some(), "{numbers:?}");
        let device = small.and(device).unwrap_or(smallest);
        let right = [device.block_pages, device.blocks].map(|length| length as usize);
        let formatted = beside.lent();
        for bytes in [bytes, formatted] {
            one_of_each(beside, &device, bytes, right);
        }
    }
    answers.tell("plain: numbers at their limits", 38_000);
}

/// Logical pages and the batch's length at and past their limits.
pub fn check_arguments(calls: &impl PlainCalls) {
    let mut answers = Answers::default();
    rounds(6, &mut answers, |random, log, answers| {
        let device = uneven_device(random);
        let n = device.logical_pages;
        let beside = &mut Beside::new(calls, log, answers);
        beside.lend(vec![0; state_bytes(device.numbers())]);
        assert_eq!(beside.format(device.numbers()), Ok(()));
        let [mut plan, _] = lists(&device);
        assert!(beside.flush(&[0, 1, n - 2, n - 1], &mut plan).is_ok());
        for page in (0..3).chain(n - 2..n + 3).chain(FAR) {
            let expected = (page >= n).then_some(Refusal::OutOfRange);
            assert_eq!(beside.lookup(page).err(), expected);
            assert_eq!(beside.discard(page).err(), expected);
            assert_eq!(beside.lookup(page).err(), expected);
        }
        let formatted = beside.lent();
        for (batch, refusal) in batches_at_limits(&device) {
            let [mut plan, _] = lists(&device);
            beside.lend(formatted.clone());
            assert_eq!(beside.flush(&batch, &mut plan).err(), refusal);
            beside.lookup_all();
        }
    });
    answers.tell(
        "plain: arguments at their limits",
        800 * multiplier() as usize,
    );
}
