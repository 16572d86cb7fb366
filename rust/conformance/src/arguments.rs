//! Single calls: on arbitrary states, with wrong lengths, and with numbers at and
//! past their limits.

use hedjosur::{LISTING_LEN, WHY_LEN};
use hedjosur_layout::{
    encode_plain_state, encode_state, groups_at, state_bytes, GROUP_BYTES, HEAD_BYTES,
};
use hedjosur_model::device::{group_of, offset_of, Device};
use hedjosur_model::ops::Refusal;
use hedjosur_model::plain;
use hedjosur_model::spare;
use hedjosur_model::state::State;
use hedjosur_model::testing::{
    any_area, batch, full_device, lists, multiplier, rounds, small_device, sound_state, CallLog,
    Random,
};

use crate::answers::Answers;
use crate::beside::Beside;
use crate::calls::Calls;
use crate::inputs::damage;
use crate::steps::Writer;

/// Calls of each kind on arbitrary states and spare areas, sound or damaged, with
/// arguments and lengths of all kinds: at least 65 a round.
pub fn check_arbitrary_states(calls: &impl Calls, base: u64) {
    let mut answers = Answers::default();
    rounds(base, &mut answers, |random, log, answers| {
        let device = match random.once_in(4) {
            true => full_device(random.between(3, 7), 256, random.below(3)),
            false => small_device(random),
        };
        let beside = &mut Beside::new(calls, log, answers);
        let (other, other_area) = arbitrary(random, &device);
        for call in 0..9 {
            let (bytes, area) = arbitrary(random, &device);
            beside.lend(bytes, area);
            let [mut plan, mut erased] = lists(&device);
            resize(random, &mut plan);
            resize(random, &mut erased);
            let number = random.below(device.logical_pages + 2);
            match call {
                0 => drop(beside.format(any_numbers(random, &device))),
                1 | 2 => {
                    let mut batch = batch(random, &device);
                    if random.once_in(10) {
                        batch.truncate(random.below(2) as usize * batch.len());
                        batch.push(number);
                    }
                    resize(random, &mut batch);
                    let _ = beside.flush(&batch, &mut plan);
                }
                3 | 4 => {
                    let _ = beside.lookup(number);
                    for _ in 0..20 {
                        let _ = beside.lookup(random.below(device.logical_pages));
                    }
                }
                5 => {
                    let _ = beside.discard(number);
                    for _ in 0..5 {
                        let logical_page = random.below(device.logical_pages);
                        let _ = beside.discard(logical_page);
                        let _ = beside.lookup(logical_page);
                    }
                }
                6 => drop(beside.collect(&mut plan, &mut erased)),
                7 => {
                    let group = random.below(device.groups() as u32 + 2);
                    let mut out = vec![0u8; LISTING_LEN];
                    resize(random, &mut out);
                    let _ = beside.list(group, out.len());
                    out.resize(WHY_LEN, 0);
                    resize(random, &mut out);
                    let _ = beside.why(number, out.len());
                    let _ = beside.compact(group);
                }
                _ => drop(beside.agree((&other, &other_area))),
            }
            beside.list_all();
        }
    });
    let met = answers.totals().map(|times| times > 0);
    assert_eq!(met, [true; 9], "{answers:?}");
    assert_eq!(answers.met("discard"), [0, 1, 2, 3, 4]);
    assert_eq!(answers.met("why"), [0, 1, 2, 3, 4]);
    answers.tell("arbitrary states", 65 * (base * multiplier()) as usize);
}

/// Any state of a device, with its spare area: mostly sound and of the right
/// length.
fn arbitrary(random: &mut Random, device: &Device) -> (Vec<u8>, Vec<u32>) {
    let state = sound_state(random, device);
    perhaps_damaged(random, device, state)
}

/// A state of a device in bytes, with a spare area that names many of its pages: mostly
/// as it was and of the right length.
pub(crate) fn perhaps_damaged(
    random: &mut Random,
    device: &Device,
    mut state: State,
) -> (Vec<u8>, Vec<u32>) {
    let mut area = any_area(random, device);
    aim(random, device, &mut state, &mut area);
    if random.once_in(12) {
        state.numbers = any_numbers(random, device);
    }
    if random.once_in(12) {
        let block = random.below(device.blocks) as usize;
        state.counts[block] = random.below(device.block_pages + 3);
    }
    let mut bytes = encode_state(&state, || random.bits() as u8).expect("a state with bytes");
    if random.once_in(16) {
        let room = bytes.len() - HEAD_BYTES;
        let at = HEAD_BYTES + random.below(room as u32) as usize;
        bytes[at] = random.bits() as u8;
    }
    if random.once_in(8) {
        let group = random.below(device.groups() as u32) as usize;
        let from = groups_at(device) + GROUP_BYTES * group;
        let part = bytes[from..].first_chunk_mut().expect("a group's bytes");
        damage(random, part);
    }
    resize(random, &mut bytes);
    resize(random, &mut area);
    (bytes, area)
}

/// Has half of the records predict pages of the device or just outside, and many
/// logical pages named by an entry of their predicted page, any of them.
fn aim(random: &mut Random, device: &Device, state: &mut State, area: &mut [u32]) {
    for record in state
        .groups
        .iter_mut()
        .flat_map(|group| &mut group.levels)
        .flatten()
    {
        if let (Some(kind), true) = (record.kind(), random.once_in(2)) {
            let page = random.below(device.pages() + 2) as i32 - 1;
            record.intercept = page - kind.rise(record.start) as i32;
        }
    }
    for _ in 0..device.logical_pages / 2 {
        let logical_page = random.below(device.logical_pages);
        let offset = offset_of(logical_page);
        let first = state.groups[group_of(logical_page)].first_with(offset);
        let predicted = first.and_then(|(_, record)| record.predicted(offset));
        if let Some(page) = predicted.and_then(|page| spare::existing(device, page)) {
            let entry = random.below(device.entries_per_page() as u32) as usize;
            area[page as usize * device.entries_per_page() + entry] = logical_page;
        }
    }
}

/// The numbers of a device, now and then with one changed.
pub(crate) fn any_numbers(random: &mut Random, device: &Device) -> [u32; 4] {
    let mut numbers = device.numbers();
    if random.once_in(2) {
        let at = random.below(4) as usize;
        numbers[at] = random.pick(&[0, 1, 3, 16, 257, 5000, u32::MAX, numbers[at] + 1]);
    }
    numbers
}

/// Gives a list another length, now and then.
pub(crate) fn resize<T: Clone + Default>(random: &mut Random, list: &mut Vec<T>) {
    if random.once_in(25) {
        let length = random.pick(&[0, 15, list.len().saturating_sub(1), list.len() + 1]);
        list.resize(length, T::default());
    }
}

/// Lengths around a right one, with it, and others that mean something elsewhere.
pub(crate) fn lengths_around(right: usize) -> [usize; 9] {
    [
        0,
        1,
        15,
        16,
        right - 1,
        right,
        right + 1,
        2 * right,
        right + GROUP_BYTES,
    ]
}

/// Every call with each of its slices in turn at lengths around the right one, and with
/// the plain engine's state, on new and on used devices.
pub fn check_wrong_lengths(calls: &impl Calls) {
    let mut answers = Answers::default();
    rounds(4, &mut answers, |random, log, answers| {
        let device = match random.once_in(2) {
            true => full_device(random.between(3, 6), 256, random.below(3)),
            false => small_device(random),
        };
        let beside = &mut Beside::new(calls, log, answers);
        let (state, area) = (state_bytes(&device), device.spare_length());
        beside.lend(vec![0; state], vec![0; area]);
        assert_eq!(beside.format(device.numbers()), Ok(()));
        for _ in 0..random.below(4) {
            let [mut plan, _] = lists(&device);
            let _ = beside.flush(&batch(random, &device), &mut plan);
        }
        let (bytes, entries) = beside.lent();
        let other = (&bytes[..], &entries[..]);
        let right = list_lengths(&device);
        for length in lengths_around(state) {
            let mut bytes = bytes.clone();
            bytes.resize(length, 0);
            one_of_each(beside, &device, (bytes, entries.clone()), other, right);
        }
        let plain = encode_plain_state(&plain::State::formatted(&device));
        one_of_each(beside, &device, (plain, entries.clone()), other, right);
        for length in lengths_around(area) {
            let mut entries = entries.clone();
            entries.resize(length, 0);
            one_of_each(beside, &device, (bytes.clone(), entries), other, right);
        }
        for list in 0..right.len() {
            for length in lengths_around(right[list]) {
                let mut lengths = right;
                lengths[list] = length;
                let buffers = (bytes.clone(), entries.clone());
                one_of_each(beside, &device, buffers, other, lengths);
            }
        }
    });
    let refused = [Refusal::BadNumbers, Refusal::BadLength].map(|why| answers.refused(why));
    assert!(
        answers.accepted() > 0 && refused.iter().all(|&times| times > 0),
        "{answers:?}"
    );
    answers.tell("wrong lengths", 2500 * multiplier() as usize);
}

/// The right lengths of plan, erased list, listing and entries.
fn list_lengths(device: &Device) -> [usize; 4] {
    [
        device.block_pages as usize,
        device.blocks as usize,
        LISTING_LEN,
        WHY_LEN,
    ]
}

/// One call of each kind on the same buffers, with a plan, an erased list, a listing
/// and entries of these lengths; agreement with themselves and with other buffers.
fn one_of_each<C: Calls>(
    beside: &mut Beside<C>,
    device: &Device,
    (bytes, area): (Vec<u8>, Vec<u32>),
    (other_bytes, other_area): (&[u8], &[u32]),
    [plan, erased, listing, entries]: [usize; 4],
) {
    let (mut plan, mut erased) = (vec![777_777; plan], vec![888_888; erased]);
    let last = device.logical_pages - 1;
    beside.lend(bytes.clone(), area.clone());
    let _ = beside.lookup(last);
    let _ = beside.list(0, listing);
    let _ = beside.why(last, entries);
    let _ = beside.agree((&bytes, &area));
    let _ = beside.agree((other_bytes, other_area));
    let _ = beside.compact(0);
    let _ = beside.discard(last);
    let _ = beside.flush(&[last, 0], &mut plan);
    beside.lend(bytes.clone(), area.clone());
    let _ = beside.collect(&mut plan, &mut erased);
    beside.lend(bytes, area);
    let _ = beside.format(device.numbers());
}

/// Every number of a device at and past its limits, alone and together: the
/// lengths, a format, and the other calls on a state that has these numbers.
pub fn check_limits(calls: &impl Calls) {
    let mut answers = Answers::default();
    let smallest = full_device(3, 4, 0);
    let mut other = (vec![0; state_bytes(&smallest)], vec![0; 12]);
    let formatted = calls.format(&mut other.0, &mut other.1, smallest.numbers());
    assert_eq!(formatted, Ok(()));
    for numbers in numbers_at_limits() {
        let device = Device::new(numbers);
        let expected = device.map(|device| [state_bytes(&device), device.spare_length()]);
        assert_eq!(calls.lengths(numbers), expected, "{numbers:?}");
        let outside = Err(Refusal::BadNumbers);
        for length in ["state_len", "spare_len"] {
            answers.count(length, &expected.map_or(outside, |_| Ok(())));
        }
        // Buffers that fit, where the numbers give any that are small enough.
        let small = expected.filter(|[state, area]| state + 4 * area <= 1 << 16);
        let [state, area] = small.unwrap_or([other.0.len(), other.1.len()]);
        let mut bytes = vec![0; state];
        for (to, number) in bytes.chunks_mut(4).zip(numbers) {
            to.copy_from_slice(&number.to_le_bytes());
        }
        let area = vec![spare::NOBODY; area];
        let log = &mut CallLog::new(0);
        let beside = &mut Beside::new(calls, log, &mut answers);
        beside.lend(bytes.clone(), area.clone());
        let formatted = beside.format(numbers);
        assert_eq!(formatted == outside, device.is_none(), "{numbers:?}");
        assert_eq!(formatted.is_ok(), small.is_some(), "{numbers:?}");
        let device = small.and(device).unwrap_or(smallest);
        let other = (&other.0[..], &other.1[..]);
        one_of_each(beside, &device, (bytes, area), other, list_lengths(&device));
    }
    answers.tell("numbers at their limits", 48_000);
}

/// Device numbers, each at, inside and past its limits.
pub(crate) fn numbers_at_limits() -> impl Iterator<Item = [u32; 4]> {
    let blocks = [0, 2, 3, 4, 4095, 4096, 4097, u32::MAX];
    let block_pages = [0, 3, 4, 5, 255, 256, 257, u32::MAX];
    let bounds = [0, 1, 15, 16, u32::MAX];
    blocks.into_iter().flat_map(move |m| {
        block_pages.into_iter().flat_map(move |b| {
            let most = (m.wrapping_sub(1).wrapping_mul(b) / 2).max(1);
            let logical_pages = [0, 1, 8, 9, 255, 256, most, most + 1, 1 << 31, u32::MAX];
            logical_pages
                .into_iter()
                .flat_map(move |n| bounds.map(|g| [m, b, n, g]))
        })
    })
}

/// A device of up to three groups; mostly neither the last one is whole nor the last
/// byte of the marks.
pub(crate) fn uneven_device(random: &mut Random) -> Device {
    let whole = full_device(random.between(3, 7), 256, random.below(3));
    Device {
        logical_pages: random.between(2, whole.logical_pages),
        ..whole
    }
}

/// Arguments at and past their limits: logical pages, groups and the batch's
/// length, on a device whose last group is not whole.
pub fn check_arguments(calls: &impl Calls) {
    let mut answers = Answers::default();
    rounds(6, &mut answers, |random, log, answers| {
        let device = uneven_device(random);
        let (n, groups) = (device.logical_pages, device.groups() as u32);
        let beside = &mut Beside::new(calls, log, answers);
        let area = vec![0; device.spare_length()];
        beside.lend(vec![0; state_bytes(&device)], area);
        assert_eq!(beside.format(device.numbers()), Ok(()));
        let [mut plan, _] = lists(&device);
        assert!(beside.flush(&[0, 1, n - 2, n - 1], &mut plan).is_ok());
        for page in (0..3).chain(n - 2..n + 3).chain(FAR) {
            let expected = (page >= n).then_some(Refusal::OutOfRange);
            assert_eq!(beside.explain(page).told.err(), expected);
            assert_eq!(beside.discard(page).err(), expected);
            assert_eq!(beside.explain(page).told.err(), expected);
        }
        for group in (0..groups + 2).chain(FAR) {
            let expected = (group >= groups).then_some(Refusal::OutOfRange);
            assert_eq!(beside.list(group, LISTING_LEN).err(), expected);
            assert_eq!(beside.compact(group).err(), expected);
        }
        let formatted = beside.lent();
        for (batch, refusal) in batches_at_limits(&device) {
            let [mut plan, _] = lists(&device);
            beside.lend(formatted.0.clone(), formatted.1.clone());
            assert_eq!(beside.flush(&batch, &mut plan).err(), refusal);
        }
    });
    answers.tell("arguments at their limits", 1000 * multiplier() as usize);
}

/// Numbers that no logical page and no group has.
pub(crate) const FAR: [u32; 4] = [1 << 20, 1 << 24, 1 << 31, u32::MAX];

/// Batches at and past the limits of a device with blocks of 256 pages that has free
/// ones, each with its refusal.
pub(crate) fn batches_at_limits(
    device: &Device,
) -> impl Iterator<Item = (Vec<u32>, Option<Refusal>)> {
    let n = device.logical_pages;
    let lengths = [0, 1, 2, 255, 256, 257, 258, 1000, 70_000];
    lengths.into_iter().flat_map(move |length: usize| {
        let places = [0, length / 2, length.saturating_sub(1)];
        let pages = [0, n - 1, n, u32::MAX];
        let changes = pages
            .into_iter()
            .flat_map(move |p| places.map(|at| (p, at)));
        changes.map(move |(page, at)| {
            let mut batch: Vec<u32> = (0..length as u32).map(|i| i % n).collect();
            batch.iter_mut().skip(at).take(1).for_each(|p| *p = page);
            let refusal = match length {
                1..=256 if page < n => None,
                1..=256 => Some(Refusal::OutOfRange),
                _ => Some(Refusal::BadBatch),
            };
            (batch, refusal)
        })
    })
}
