//! The calls on whole devices.

use std::hint::black_box;

use hedjosur_baseline::device;
use hedjosur_conformance::subjects::Baseline;
use hedjosur_layout::encode_state;
use hedjosur_model::device::Device;
use hedjosur_model::ops::Lookup;
use hedjosur_model::spare;
use hedjosur_model::state::State;
use hedjosur_model::testing::{full_device, Random};

use crate::batches::{inputs, LEARNED};
use crate::buffers::{time, time_each, Buffers};
use crate::kinds::{self, Kind, DEEP, GAPPED, MIXED};
use crate::row;
use crate::timing::compare;

/// How many groups of a kind take turns.
const GROUPS: u64 = 16;

/// Whether logical pages that a lookup answers this of are asked for.
type Asked = fn(Lookup) -> bool;

/// A device of one group of a kind, and logical pages that lookups don't refuse.
struct OneGroup {
    buffers: Buffers,
    pages: Vec<u32>,
}

impl OneGroup {
    /// A group's records predict pages, and the spare area names as many logical
    /// pages as it can where they are predicted.
    fn new((_, group): Kind, bound: u32, seed: u64, asked: Asked) -> OneGroup {
        let random = &mut Random::new(seed);
        let device = full_device(9, 64, bound);
        let state = State {
            counts: vec![64; 9],
            groups: vec![group(random)],
            ..State::formatted(&device)
        };
        let mut area = vec![spare::NOBODY; device.spare_length()];
        for offset in 0..=255 {
            let first = state.groups[0].first_with(offset);
            let predicted = first.and_then(|(_, record)| record.predicted(offset));
            if let Some(page) = predicted.and_then(|page| spare::existing(&device, page)) {
                let width = device.entries_per_page();
                let entry = random.below(width as u32) as usize;
                area[page as usize * width + entry] = offset.into();
            }
        }
        let state = encode_state(&state, || 0).expect("a state with bytes");
        let mut pages: Vec<u32> = (0..256)
            .filter(|&page| device::lookup(&state, &area, page).is_ok_and(asked))
            .collect();
        random.shuffle(&mut pages);
        pages.truncate(8);
        let buffers = Buffers::new(&device, state, area);
        OneGroup { buffers, pages }
    }

    /// The devices of a kind that take turns, with any logical pages.
    fn all(kind: Kind, bound: u32) -> Vec<OneGroup> {
        OneGroup::asked(kind, bound, |_| true)
    }

    /// The devices of a kind that take turns, with logical pages that are asked for.
    fn asked(kind: Kind, bound: u32, asked: Asked) -> Vec<OneGroup> {
        let devices = (0..GROUPS).map(|seed| OneGroup::new(kind, bound, seed, asked));
        devices.collect()
    }

    /// Discards the logical pages.
    fn discard(&mut self) {
        for &page in &self.pages {
            assert_eq!(self.buffers.discard(&Baseline, page), Ok(()));
        }
    }
}

/// Times a call about each of the logical pages.
fn time_pages(
    function: &str,
    input: &str,
    mut work: Vec<OneGroup>,
    baseline: impl Fn(&mut Buffers, u32),
    proved: impl Fn(&mut Buffers, u32),
) {
    fn run(call: impl Fn(&mut Buffers, u32)) -> impl Fn(&mut Vec<OneGroup>) {
        move |work| {
            for OneGroup { buffers, pages } in work {
                for &page in pages.iter() {
                    call(buffers, page);
                }
            }
        }
    }
    let calls = work.iter().map(|one| one.pages.len()).sum();
    row(function, input, || {
        compare(&mut work, calls, |_| (), run(baseline), run(proved))
    });
}

/// Times lookups.
fn time_lookups(input: &str, work: Vec<OneGroup>) {
    time_pages(
        "lookup",
        input,
        work,
        |Buffers { state, area, .. }, page| {
            let _ = black_box(device::lookup(state, area, page));
        },
        |Buffers { state, area, .. }, page| {
            let device = hedjosur::Device { state, spare: area };
            let _ = black_box(device.lookup(page));
        },
    );
}

/// Times lookups in groups of all kinds, and in some for other error bounds.
pub fn lookup() {
    let mixed = |bound| MIXED.into_iter().map(move |kind| (kind, bound));
    let all = kinds::all().map(|kind| (kind, 1));
    for (kind, bound) in mixed(0).chain(all).chain(mixed(4)) {
        let input = format!("{}, g {bound}", kind.0);
        time_lookups(&input, OneGroup::all(kind, bound));
    }
}

/// Times lookups of discarded pages.
pub fn lookup_of_discarded() {
    for kind in MIXED {
        let mut work = OneGroup::all(kind, 1);
        work.iter_mut().for_each(OneGroup::discard);
        time_lookups(&format!("{}, discarded", kind.0), work);
    }
}

/// Times discards, in groups of all kinds.
pub fn discard() {
    for kind in kinds::all() {
        time_pages(
            "discard",
            kind.0,
            OneGroup::all(kind, 1),
            |Buffers { state, area, .. }, page| {
                let _ = black_box(device::discard(state, area, page));
            },
            |Buffers { state, area, .. }, page| {
                let mut device = hedjosur::Device { state, spare: area };
                let _ = black_box(device.discard(page));
            },
        );
    }
}

/// Times telling why, in groups of all kinds, and of logical pages that are found at
/// the top, that are found far down, and that aren't written.
pub fn why() {
    for kind in kinds::all() {
        time_whys(kind.0, OneGroup::all(kind, 1));
    }
    let [.., mixed] = MIXED;
    let at_the_top: Asked = |lookup| matches!(lookup, Lookup::Found { levels: 1, .. });
    let far_down: Asked = |lookup| matches!(lookup, Lookup::Found { levels: 10.., .. });
    let unwritten: Asked = |lookup| lookup.page().is_none();
    for (kind, name, asked) in [
        (mixed, "top", at_the_top),
        (mixed, "far down", far_down),
        (GAPPED, "unwritten", unwritten),
        (DEEP, "unwritten", unwritten),
    ] {
        let input = format!("{}, {name}", kind.0);
        time_whys(&input, OneGroup::asked(kind, 1, asked));
    }
}

/// Times tellings of why.
fn time_whys(input: &str, work: Vec<OneGroup>) {
    time_pages(
        "why",
        input,
        work,
        |Buffers { state, entries, .. }, page| {
            let _ = black_box(device::why(state, page, entries));
        },
        |Buffers { state, entries, .. }, page| {
            let device = hedjosur::Device { state, spare: () };
            let _ = black_box(device.why(page, entries));
        },
    );
}

/// Times the compaction of one group.
pub fn compaction() {
    for kind in kinds::all() {
        let before = OneGroup::new(kind, 1, 0, |_| true).buffers;
        time("compaction", kind.0, before, |calls, buffers| {
            assert!(buffers.compact(calls, 0).is_ok());
        });
    }
}

/// Small to large devices, the last one the largest.
pub fn devices() -> [(String, Device); 4] {
    [(9, 64), (129, 256), (1025, 256), (4096, 256)].map(|(blocks, block_pages)| {
        let device = full_device(blocks, block_pages, 1);
        (format!("{blocks} x {block_pages}"), device)
    })
}

/// Times format.
pub fn format() {
    for (name, device) in devices() {
        let before = Buffers::used(&device, 0);
        time("format", &name, before, |calls, buffers| {
            assert!(buffers.format(calls, device.numbers()).is_ok());
        });
    }
}

/// Times flushes of several lengths, on devices that are used by half.
pub fn flush() {
    for (name, device) in devices() {
        let before = Buffers::used(&device, device.blocks / 2);
        for length in [4, 64, 256] {
            if length <= device.block_pages {
                let batch = clustered(&device, length);
                let input = format!("{name}, {length} pages");
                time("flush", &input, before.clone(), |calls, buffers| {
                    assert!(buffers.flush(calls, &batch).is_ok());
                });
            }
        }
    }
}

/// Times flushes of patterns, for several error bounds: on a new device, and into
/// groups that hold many records.
pub fn flush_of_patterns() {
    let patterns = LEARNED.into_iter().filter(|(name, _)| *name != "strided");
    for pattern in patterns {
        let batches = inputs(pattern);
        for bound in [0, 1, 4, 15] {
            let device = full_device(17, 256, bound);
            let fresh = Buffers::used(&device, 0);
            let crowded = Buffers::crowded(&device);
            for (name, before) in [("fresh", fresh), ("crowded", crowded)] {
                let input = format!("{name}, {}, g {bound}", pattern.0);
                time_flushes(&input, &before, &batches);
            }
        }
    }
}

/// Times flushes of patterns to a new device whose logical pages are all discarded.
pub fn flush_of_discarded() {
    let device = full_device(17, 256, 1);
    let mut before = Buffers::used(&device, 0);
    for page in 0..device.logical_pages {
        assert_eq!(before.discard(&Baseline, page), Ok(()));
    }
    for pattern in LEARNED {
        let input = format!("discarded, {}, g 1", pattern.0);
        time_flushes(&input, &before, &inputs(pattern));
    }
}

/// Times flushes of these batches, each time to the same buffers.
fn time_flushes(input: &str, before: &Buffers, batches: &[Vec<u32>]) {
    time_each("flush", input, before, batches, |calls, now, batch| {
        assert!(now.flush(calls, batch).is_ok());
    });
}

/// This many distinct logical pages in clusters, somewhere in the middle.
pub fn clustered(device: &Device, length: u32) -> Vec<u32> {
    let random = &mut Random::new(length.into());
    let mut page = device.logical_pages / 3;
    let pages = (0..length).map(|_| {
        page += random.pick(&[1, 1, 1, 2, 3]);
        page % device.logical_pages
    });
    pages.collect()
}

/// Times collections, on devices that are full.
pub fn collection() {
    for (name, device) in devices() {
        let before = Buffers::used(&device, device.blocks - 1);
        time("collection", &name, before, |calls, buffers| {
            assert!(buffers.collect(calls).is_ok());
        });
    }
}

/// Times agreement of two devices that agree, and of two that don't: the groups of one
/// are compacted. Then too all logical pages have to be looked up.
pub fn agreement() {
    for (name, device) in devices() {
        let before = Buffers::used(&device, device.blocks / 2);
        time_agreement(&name, &before, &before, true);
    }
    let before = Buffers::used(&full_device(129, 256, 15), 64);
    time_agreement("129 x 256, g 15", &before, &before, true);
    let device = full_device(129, 256, 1);
    let before = Buffers::used(&device, 64);
    let mut compacted = before.clone();
    for group in 0..device.groups() as u32 {
        assert!(compacted.compact(&Baseline, group).is_ok());
    }
    time_agreement("129 x 256, compacted", &before, &compacted, false);
}

/// Times agreement of two devices, of which the answer is known.
fn time_agreement(input: &str, one: &Buffers, other: &Buffers, agree: bool) {
    let other = other.clone();
    time("agreement", input, one.clone(), |calls, buffers| {
        assert_eq!(buffers.agree(calls, &other), Ok(agree));
    });
}
