//! Both engines on the same random lists of calls: 'from a format, the same calls with
//! rightly sized slices give the same pages, plans, erased lists and refusals in both
//! engines'. The book is fed by what they answer, and compared with a lookup of every
//! logical page after every call.

mod calls;
mod engines;
mod steps;

use engines::{Engines, Tally};
use hedjosur_model::testing::{full_device, rounds, small_device};

/// Every answer that a list of calls meets, and no other: 3 and 7 never occur from a
/// format, nor does 6 in a collection.
const ANSWERS: [(&str, u32); 20] = [
    ("agreement", 0),
    ("agreement in pages alone", 0),
    ("collection", 0),
    ("collection", 2),
    ("collection", 8),
    ("collection of nothing", 0),
    ("compaction", 0),
    ("disagreement", 0),
    ("discard", 0),
    ("discard", 4),
    ("flush", 0),
    ("flush", 2),
    ("flush", 4),
    ("flush", 5),
    ("flush", 6),
    ("format", 0),
    ("format", 1),
    ("lookup", 0),
    ("lookup", 4),
    ("lookup of nothing", 0),
];

#[test]
fn small_devices() {
    let mut tally = Tally::new();
    rounds(700, &mut tally, |random, log, tally| {
        let device = small_device(random);
        let mut engines = Engines::new(device, random, log, tally);
        for _ in 0..40 {
            engines.step();
        }
    });
    assert!(tally.values().sum::<usize>() >= 20_000, "{tally:?}");
    assert!(tally.keys().eq(&ANSWERS), "{tally:?}");
}

/// Several groups, large blocks, and bounds up to the largest.
#[test]
fn larger_devices() {
    let devices = [
        (9, 64, 1),
        (130, 4, 2),
        (17, 64, 4),
        (4, 256, 0),
        (5, 64, 15),
    ];
    let mut tally = Tally::new();
    rounds(2, &mut tally, |random, log, tally| {
        for (blocks, block_pages, bound) in devices {
            let device = full_device(blocks, block_pages, bound);
            let mut engines = Engines::new(device, random, log, tally);
            for _ in 0..20 + blocks {
                engines.call();
            }
        }
    });
    for answer in [
        ("flush", 0),
        ("flush", 6),
        ("collection", 0),
        ("discard", 0),
    ] {
        assert!(tally.contains_key(&answer), "{tally:?}");
    }
}
