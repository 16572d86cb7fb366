//! Demand 3 on random lists of calls: the book, fed by arguments and answers
//! alone, is compared with a lookup of every logical page after every call.

mod calls;
mod check;
mod events;
mod gain;
mod history;
mod refused;
mod steps;
mod watch;
mod why;

use events::{assert_happened, Events};
use hedjosur_model::testing::{batch, full_device, rounds, small_device};
use history::History;

#[test]
fn small_devices() {
    let mut events = Events::default();
    rounds(1500, &mut events, |random, log, events| {
        let device = small_device(random);
        let steps = random.between(20, 60);
        let mut history = History::new(device, random, log, events);
        for _ in 0..steps {
            history.step();
        }
    });
    assert_happened!(
        events,
        second_victim,
        second_victim_under_a_new_level,
        vanished_level,
        owner_gone_deep_down,
        edge_prediction,
        collected,
        nothing_to_gain,
        flush_after_collection,
        reformat,
        agreed,
        agreed_in_pages_alone,
        disagreed,
        not_written,
        one_read,
        two_reads,
        refused,
        discarded,
        discarded_unwritten,
        discarded_again,
        discarded_before_a_repeat,
        written_again,
        spared_refusal_7,
        nothing_to_copy,
        told_none,
        told_off_the_stride,
        told_unowned,
        told_owner,
        told_hidden_owner,
        told_member,
        told_nothing,
    );
}

#[test]
fn larger_devices() {
    let devices = [
        // One group, or nearly.
        (9, 64, 1),
        (5, 64, 15),
        (17, 16, 3),
        // Several groups.
        (130, 4, 1),
        (17, 64, 2),
        (4, 256, 0),
        (5, 256, 4),
    ];
    let mut events = Events::default();
    rounds(3, &mut events, |random, log, events| {
        for (blocks, block_pages, bound) in devices {
            let device = full_device(blocks, block_pages, bound);
            let mut history = History::new(device, random, log, events);
            for _ in 0..25 + blocks {
                history.step();
            }
        }
    });
    assert_happened!(
        events,
        second_victim,
        vanished_level,
        owner_gone_deep_down,
        edge_prediction,
        collected,
        flush_after_collection,
        two_reads,
        refused,
        discarded,
        discarded_before_a_repeat,
        written_again,
        spared_refusal_7,
        told_hidden_owner,
    );
}

/// Pairs around each other never lose a member, so that their group fills up to
/// 512 records and has to be compacted.
#[test]
fn crowded_groups() {
    let mut events = Events::default();
    rounds(3, &mut events, |random, log, events| {
        let bound = random.below(3);
        let device = full_device(random.between(6, 8), random.between(4, 6), bound);
        let last = device.logical_pages - 1;
        let mut history = History::new(device, random, log, events);
        let before = history.events.compaction_for_room;
        let mut flushes = 0;
        while history.events.compaction_for_room == before {
            assert!(flushes < 2000, "the group never fills up");
            let inner = flushes % 2;
            history.flush_by_any_means(&[inner, last - inner], History::refused_call);
            flushes += 1;
        }
        for _ in 0..20 {
            history.step();
        }
    });
    assert_happened!(events, compaction_for_room, flush_after_collection);
}

/// Scattered batches on large blocks: many records at a time, deep levels.
#[test]
fn scattered_batches() {
    let mut events = Events::default();
    rounds(3, &mut events, |random, log, events| {
        let device = full_device(6, 128, random.below(2));
        let mut history = History::new(device, random, log, events);
        for _ in 0..40 {
            let mut pages: Vec<u32> = (0..device.logical_pages).collect();
            history.random.shuffle(&mut pages);
            history.flush_by_any_means(&pages[..128], History::lookup);
        }
    });
    assert_happened!(
        events,
        second_victim,
        second_victim_under_a_new_level,
        compaction_for_room,
    );
}

/// All logical pages are discarded before each collection, so that it copies
/// nothing, and again before the flush is repeated.
#[test]
fn everything_is_discarded() {
    let mut events = Events::default();
    rounds(100, &mut events, |random, log, events| {
        let device = small_device(random);
        let mut history = History::new(device, random, log, events);
        for _ in 0..20 {
            let batch = batch(history.random, &device);
            history.flush_by_any_means(&batch, History::discard_all);
        }
    });
    assert_eq!(events.collected, 0);
    assert_happened!(
        events,
        nothing_to_copy,
        flush_after_collection,
        written_again,
    );
}
