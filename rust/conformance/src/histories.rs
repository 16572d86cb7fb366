//! Lists of calls that start with a format: document 01's cases and script, and
//! random ones.

use std::collections::BTreeMap;

use hedjosur::LISTING_LEN;
use hedjosur_layout::state_bytes;
use hedjosur_model::cases::{cases, LISTING, SCRIPT};
use hedjosur_model::device::{group_of, Device};
use hedjosur_model::learn::{last_arrivals, learn};
use hedjosur_model::levels::GROUP_RECORDS;
use hedjosur_model::ops::Refusal;
use hedjosur_model::script::{listing, read_line, Answer, Line};
use hedjosur_model::testing::{
    any_area, batch, full_device, lists, multiplier, rounds, small_device, CallLog, Random,
};

use crate::answers::Answers;
use crate::beside::Beside;
use crate::calls::Calls;
use crate::steps::{discard_some, flush_by_any_means, Writer};

/// Every case of document 01, call by call.
pub fn check_cases(calls: &impl Calls) {
    let mut answers = Answers::default();
    for case in cases() {
        let mut log = CallLog::new(0);
        let mut beside = Beside::new(calls, &mut log, &mut answers);
        for (line, answer) in &case.calls {
            assert_eq!(&beside.call(line), answer, "{}: {line:?}", case.name);
        }
    }
    answers.tell("document 01's cases", 90);
}

/// Document 01's script, line by line, and its listing.
pub fn check_script(calls: &impl Calls) {
    let mut answers = Answers::default();
    let mut log = CallLog::new(0);
    let mut beside = Beside::new(calls, &mut log, &mut answers);
    let mut printed = Vec::new();
    for line in SCRIPT.lines() {
        let line = read_line(line.as_bytes()).expect("no bad line");
        match beside.call(&line) {
            Answer::Refused(refusal) => panic!("{line:?} is refused: {refusal:?}"),
            Answer::Listed(records) => printed.extend(listing(&records)),
            _ => {}
        }
        beside.list_all();
    }
    assert!(printed.iter().map(String::as_str).eq(LISTING.lines()));
    answers.tell("document 01's script", SCRIPT.lines().count());
}

/// Random lists of calls, on buffers that held anything before the format: at least
/// 300 a round. Every group is listed after every call, and a logical page is looked up
/// and told of; at the end many are.
pub fn check_histories(calls: &impl Calls, base: u64) {
    let mut counts = (Answers::default(), 0);
    rounds(base, &mut counts, |random, log, (answers, emptied)| {
        let device = match random.below(3) {
            0 => full_device(random.between(4, 9), 64, random.below(16)),
            1 => full_device(random.between(3, 7), 256, random.below(16)),
            _ => small_device(random),
        };
        let mut beside = Beside::new(calls, log, answers);
        lend_anything(&mut beside, &device, random);
        *emptied += history(&mut beside, &device, random);
    });
    let (answers, emptied) = counts;
    assert!(emptied > 0, "no collection had nothing to move");
    // From a format, 3 and 7 never occur; 1, 2 and 5 need other arguments.
    let refused = |why| answers.refused(why);
    let [no_free, no_gain] = [Refusal::NoFreeBlock, Refusal::NothingToGain].map(refused);
    assert!(
        answers.accepted() > 0 && no_free > 0 && no_gain > 0,
        "{answers:?}"
    );
    assert_eq!([Refusal::NotSound, Refusal::NotNamed].map(refused), [0, 0]);
    answers.tell("histories", 300 * (base * multiplier()) as usize);
}

/// Devices with the same lengths of state and spare area, formatted one after the
/// other in the same buffers, with calls of all kinds after each.
pub fn check_shared_lengths(calls: &impl Calls) {
    let mut answers = Answers::default();
    let alike = devices_alike(|device| [state_bytes(device), device.spare_length()]);
    rounds(30, &mut answers, |random, log, answers| {
        let devices = &alike[random.below(alike.len() as u32) as usize];
        let mut beside = Beside::new(calls, log, answers);
        lend_anything(&mut beside, &devices[0], random);
        for _ in 0..4 {
            history(&mut beside, &random.pick(devices), random);
        }
    });
    answers.tell("devices of one length", 20_000 * multiplier() as usize);
}

/// Small devices by the lengths of what is lent, where some have more blocks than
/// others. What they have more of counts they have less of marks or entries.
pub(crate) fn devices_alike<L: Ord>(lengths: impl Fn(&Device) -> L) -> Vec<Vec<Device>> {
    let mut alike: BTreeMap<L, Vec<Device>> = BTreeMap::new();
    for (blocks, block_pages) in (3..=8).flat_map(|m| (4..=24).map(move |b| (m, b))) {
        for bound in 0..=2 {
            let full = full_device(blocks, block_pages, bound);
            for logical_pages in 1..=full.logical_pages {
                let device = Device {
                    logical_pages,
                    ..full
                };
                alike.entry(lengths(&device)).or_default().push(device);
            }
        }
    }
    let differ = |devices: &Vec<Device>| devices[0].blocks != devices[devices.len() - 1].blocks;
    alike.into_values().filter(differ).collect()
}

/// Lends buffers of a device that hold anything.
fn lend_anything<C: Calls>(beside: &mut Beside<C>, device: &Device, random: &mut Random) {
    let bytes = (0..state_bytes(device)).map(|_| random.bits() as u8);
    beside.lend(bytes.collect(), any_area(random, device));
}

/// A format and calls of all kinds. Answers how many collections had nothing to move.
fn history<C: Calls>(beside: &mut Beside<C>, device: &Device, random: &mut Random) -> usize {
    assert_eq!(beside.format(device.numbers()), Ok(()));
    let mut earlier = beside.lent();
    let mut emptied = 0;
    for _ in 0..40 {
        let [mut plan, mut erased] = lists(device);
        match random.below(14) {
            0..=5 => flush_by_any_means(beside, device, &batch(random, device), |beside| {
                discard_some(beside, device, random);
            }),
            6 => {
                let collected = beside.collect(&mut plan, &mut erased);
                emptied += usize::from(collected.is_ok_and(|collected| collected.count == 0));
            }
            7 => drop(beside.compact(random.below(device.groups() as u32 + 1))),
            8 => drop(beside.agree((&earlier.0, &earlier.1))),
            9 => earlier = beside.lent(),
            10 if random.once_in(8) => assert_eq!(beside.format(device.numbers()), Ok(())),
            11 | 12 => discard_some(beside, device, random),
            _ => drop(beside.lookup(random.below(device.logical_pages))),
        }
        beside.list_all();
        beside.explain(random.below(device.logical_pages));
    }
    for _ in 0..device.logical_pages.min(100) {
        beside.explain(random.below(device.logical_pages));
    }
    emptied
}

/// Groups that fill up until a flush has to compact them first: by pairs of pages
/// around each other, one record each, and by scattered batches.
pub fn check_crowded_groups(calls: &impl Calls) {
    let mut answers = Answers::default();
    rounds(2, &mut answers, |random, log, answers| {
        let beside = &mut Beside::new(calls, log, answers);
        let small = full_device(random.between(6, 8), random.between(4, 6), random.below(3));
        let last = small.logical_pages - 1;
        let pairs = (0..2000).map(|flush| vec![flush % 2, last - flush % 2]);
        assert!(is_compacted_for_room(beside, &small, pairs));

        let large = full_device(6, 128, 0);
        let mut pages: Vec<u32> = (0..large.logical_pages).collect();
        let scattered = (0..60).map(|_| {
            random.shuffle(&mut pages);
            pages[..128].to_vec()
        });
        assert!(is_compacted_for_room(beside, &large, scattered));
    });
    answers.tell("crowded groups", 2200 * multiplier() as usize);
}

/// Formats a device and flushes batches until group 0 has been compacted for room
/// and ten more are flushed; false where that doesn't happen.
fn is_compacted_for_room<C: Calls>(
    beside: &mut Beside<C>,
    device: &Device,
    batches: impl Iterator<Item = Vec<u32>>,
) -> bool {
    assert_eq!(
        beside.call(&Line::Format(device.numbers())),
        Answer::Formatted
    );
    let mut more = None;
    for batch in batches {
        let before = beside.list(0, LISTING_LEN).expect("a listing").len();
        flush_by_any_means(beside, device, &batch, |_| {});
        let sorted: Vec<u32> = last_arrivals(&batch).into_keys().collect();
        let learned = learn(device.bound, 0, &sorted);
        let new = learned.iter().filter(|one| one.group == 0).count();
        if before + new > GROUP_RECORDS {
            more = more.or(Some(10));
        }
        match &mut more {
            Some(0) => return true,
            Some(left) => *left -= 1,
            None => {}
        }
    }
    false
}

/// The largest device: flushes until a few of its blocks are used, lookups with tellings
/// of why, discards, a compaction and a collection, at its first, last and other logical
/// pages.
pub fn check_largest_device(calls: &impl Calls) {
    let mut answers = Answers::default();
    rounds(1, &mut answers, |random, log, answers| {
        let device = full_device(4096, 256, 1);
        let mut beside = Beside::new(calls, log, answers);
        beside.lend(
            vec![0xA5; state_bytes(&device)],
            vec![7; device.spare_length()],
        );
        assert_eq!(beside.format(device.numbers()), Ok(()));
        let last = device.logical_pages - 1;
        let mut batches = vec![
            (0..256).collect(),
            (last - 255..=last).collect(),
            (0..256).map(|i| last - 2 * i).collect(),
            vec![0, last],
        ];
        batches.extend((0..4).map(|_| batch(random, &device)));
        for batch in batches {
            let [mut plan, _] = lists(&device);
            assert!(beside.flush(&batch, &mut plan).is_ok());
            for logical_page in [batch[0], batch[batch.len() - 1], last, last + 1] {
                beside.explain(logical_page);
            }
            let group = group_of(batch[0]) as u32;
            assert!(beside.list(group, LISTING_LEN).is_ok());
        }
        for logical_page in [0, last, last - 8] {
            assert_eq!(beside.discard(logical_page), Ok(()));
            assert!(beside.explain(logical_page).lookup.is_ok());
        }
        assert_eq!(beside.discard(last + 1), Err(Refusal::OutOfRange));
        let groups = device.groups() as u32;
        assert!(beside.compact(groups - 1).is_ok());
        assert_eq!(beside.compact(groups), Err(Refusal::OutOfRange));
        let [mut plan, mut erased] = lists(&device);
        assert!(beside.collect(&mut plan, &mut erased).is_ok());
        for _ in 0..50 {
            beside.explain(random.below(device.logical_pages));
        }
    });
    answers.tell("the largest device", 180 * multiplier() as usize);
}
