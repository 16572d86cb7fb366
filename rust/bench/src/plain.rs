//! The plain engine's calls.

use std::hint::black_box;

use hedjosur_baseline::plain;
use hedjosur_conformance::calls::PlainCalls;
use hedjosur_conformance::subjects::{Baseline, Exported};
use hedjosur_layout::encode_plain_state;
use hedjosur_model::device::Device;
use hedjosur_model::plain::State;
use hedjosur_model::testing::{batch, full_device, Random};

use crate::batches::{inputs, LEARNED};
use crate::buffers::{time_sides, Buffers};
use crate::calls::{clustered, devices};
use crate::row;
use crate::timing::compare;

/// How many logical pages are looked up or discarded in turn: those of a device, in
/// random order, again and again.
const PAGES: usize = 1 << 16;

/// Buffers of a newly formatted device.
fn fresh(device: &Device) -> Buffers {
    holding(device, &State::formatted(device))
}

/// Buffers of a state.
fn holding(device: &Device, state: &State) -> Buffers {
    Buffers::new(device, encode_plain_state(state), Vec::new())
}

/// A device with this many blocks used, by batches of all patterns.
fn used(device: &Device, blocks: u32) -> Buffers {
    let random = &mut Random::new(blocks.into());
    let mut buffers = fresh(device);
    for _ in 0..blocks {
        flush_batch(&Baseline, &mut buffers, &batch(random, device));
    }
    buffers
}

/// A device whose logical pages are all written, on all blocks but two: the pages that
/// hold them stand in the order of the logical pages, or in random order.
fn written(device: &Device, in_order: bool) -> Buffers {
    let mut pages: Vec<u32> = (0..(device.blocks - 2) * device.block_pages).collect();
    if !in_order {
        Random::new(0).shuffle(&mut pages);
    }
    let mut state = State::formatted(device);
    state.counts[2..].fill(device.block_pages);
    for (entry, page) in state.entries.iter_mut().zip(pages) {
        *entry = 2 * device.block_pages + page;
    }
    holding(device, &state)
}

/// Flushes a batch.
fn flush_batch(calls: &dyn PlainCalls, buffers: &mut Buffers, batch: &[u32]) {
    let Buffers { state, plan, .. } = buffers;
    assert!(calls.flush(state, batch, plan).is_ok());
}

/// Collects.
fn collect(calls: &dyn PlainCalls, buffers: &mut Buffers) {
    let Buffers {
        state,
        plan,
        erased,
        ..
    } = buffers;
    assert!(calls.collect(state, plan, erased).is_ok());
}

/// Times a call with each of these arguments, each time on the same buffers.
fn time<T>(
    function: &str,
    input: &str,
    before: &Buffers,
    arguments: &[T],
    call: impl Fn(&dyn PlainCalls, &mut Buffers, &T),
) {
    let sides: [&dyn PlainCalls; 2] = [&Baseline, &Exported];
    time_sides(
        sides,
        function,
        input,
        before,
        arguments,
        |calls, now, argument| {
            call(calls, now, argument);
        },
    );
}

/// Times format.
pub fn format() {
    for (name, device) in devices() {
        let numbers = [device.numbers()];
        let call = |calls: &dyn PlainCalls, buffers: &mut Buffers, &numbers: &_| {
            assert!(calls.format(&mut buffers.state, numbers).is_ok());
        };
        time("plain format", &name, &used(&device, 0), &numbers, call);
    }
}

/// Times a call about each of a device's logical pages, in random order: where they are
/// written, and where they aren't. Each time the state is the same before.
fn time_pages(function: &str, baseline: impl Fn(&mut [u8], u32), proved: impl Fn(&mut [u8], u32)) {
    fn run(pages: &[u32], call: &impl Fn(&mut [u8], u32), state: &mut [u8]) {
        for &page in pages {
            call(black_box(&mut *state), page);
        }
    }
    for (name, device) in devices() {
        let mut pages: Vec<u32> = (0..device.logical_pages).collect();
        Random::new(0).shuffle(&mut pages);
        let pages: Vec<u32> = pages.into_iter().cycle().take(PAGES).collect();
        for (order, before) in [
            ("random order", written(&device, false)),
            ("not written", fresh(&device)),
        ] {
            let before = before.state;
            row(function, &format!("{name}, {order}"), || {
                compare(
                    &mut before.clone(),
                    pages.len(),
                    |state| state.copy_from_slice(&before),
                    |state| run(&pages, &baseline, state),
                    |state| run(&pages, &proved, state),
                )
            });
        }
    }
}

/// Times lookups.
pub fn lookup() {
    time_pages(
        "plain lookup",
        |state, page| {
            let _ = black_box(plain::lookup(state, page));
        },
        |state, page| {
            let _ = black_box(hedjosur::Plain { state }.lookup(page));
        },
    );
}

/// Times discards.
pub fn discard() {
    time_pages(
        "plain discard",
        |state, page| {
            let _ = black_box(plain::discard(state, page));
        },
        |state, page| {
            let _ = black_box(hedjosur::Plain { state }.discard(page));
        },
    );
}

/// Times flushes of several lengths, on devices that are used by half.
pub fn flush() {
    for (name, device) in devices() {
        let before = used(&device, device.blocks / 2);
        for length in [4, 64, 256] {
            if length <= device.block_pages {
                let batches = [clustered(&device, length)];
                let input = format!("{name}, {length} pages");
                time_flushes(&input, &before, &batches);
            }
        }
    }
}

/// Times flushes of patterns to a new device.
pub fn flush_of_patterns() {
    let before = fresh(&full_device(17, 256, 1));
    for pattern in LEARNED {
        let input = format!("fresh, {}", pattern.0);
        time_flushes(&input, &before, &inputs(pattern));
    }
}

/// Times flushes to devices whose logical pages are all written, in order or not.
pub fn flush_of_orders() {
    for (name, device) in devices() {
        let batches = [clustered(&device, 64)];
        for (order, in_order) in [("in order", true), ("random order", false)] {
            let input = format!("{name}, {order}");
            time_flushes(&input, &written(&device, in_order), &batches);
        }
    }
}

/// Times flushes of these batches, each time to the same buffers.
fn time_flushes(input: &str, before: &Buffers, batches: &[Vec<u32>]) {
    time(
        "plain flush",
        input,
        before,
        batches,
        |calls, now, batch| {
            flush_batch(calls, now, batch);
        },
    );
}

/// Times collections, on devices that are full.
pub fn collection() {
    for (name, device) in devices() {
        let before = used(&device, device.blocks - 1);
        time_collection(&name, &before);
    }
    for (name, device) in devices() {
        let before = written(&device, false);
        time_collection(&format!("{name}, random order"), &before);
    }
}

/// Times a collection of these buffers.
fn time_collection(input: &str, before: &Buffers) {
    time(
        "plain collection",
        input,
        before,
        &[()],
        |calls, now, ()| {
            collect(calls, now);
        },
    );
}
