//! Sorting and learning 256 pages.

use std::collections::BTreeSet;
use std::hint::black_box;

use hedjosur_baseline::learn::learn;
use hedjosur_baseline::sort::{ascends, sort_batch, BATCH};
use hedjosur_model::testing::Random;
use hedjosur_probe_sys as probe;

use crate::row;
use crate::timing::compare;

/// How many inputs of a pattern take turns.
pub const INPUTS: u64 = 8;

/// Learning, by the baseline or the proved code.
type Learn = fn(written: &[u32], first: u32, bound: u32, out: &mut [u8]) -> usize;

/// Sorting, by the baseline or the proved code.
type Sort = fn(batch: &[u32], pages: &mut [u32], sources: &mut [u32]) -> usize;

/// A pattern's name, and what makes one of its batches.
pub type Pattern = (&'static str, fn(&mut Random) -> Vec<u32>);

/// Ascending batches below logical page 2,048.
pub const LEARNED: [Pattern; 4] = [
    ("sequential", |random| {
        let first = random.below(768);
        (first..first + 256).collect()
    }),
    ("strided", |random| {
        let (first, stride) = (random.below(64), random.between(2, 5));
        (0..256).map(|i| first + stride * i).collect()
    }),
    ("clustered", |random| {
        let mut page = random.below(256);
        let mut clusters = Vec::new();
        while clusters.len() < BATCH {
            let length = random.between(1, 12);
            clusters.extend(page..page + length);
            page += length + random.between(1, 6);
        }
        clusters.truncate(BATCH);
        clusters
    }),
    ("random", |random| {
        let mut pages = BTreeSet::new();
        while pages.len() < BATCH {
            pages.insert(random.below(1024));
        }
        pages.into_iter().collect()
    }),
];

const SORTED: [Pattern; 4] = [
    ("ascending", |random| ascending(random).collect()),
    ("descending", |random| ascending(random).rev().collect()),
    ("random", |random| {
        (0..256).map(|_| random.below(524_160)).collect()
    }),
    ("repeats", |random| {
        (0..256).map(|_| random.below(64)).collect()
    }),
];

fn ascending(random: &mut Random) -> impl DoubleEndedIterator<Item = u32> {
    let (first, stride) = (random.below(1000), random.between(1, 9));
    (0..256).map(move |i| first + stride * i)
}

/// The inputs of a pattern; each pattern has the same ones in every run.
pub fn inputs((_, batch): Pattern) -> Vec<Vec<u32>> {
    (0..INPUTS)
        .map(|seed| batch(&mut Random::new(seed)))
        .collect()
}

/// Times learning, for several error bounds.
pub fn learning() {
    for pattern in LEARNED {
        for bound in [0, 1, 4, 15] {
            let batches = inputs(pattern);
            let run = |learn: Learn| {
                let batches = &batches;
                move |out: &mut [u8; 8 * BATCH]| {
                    for batch in batches {
                        black_box(learn(black_box(batch), 4096, bound, out));
                    }
                }
            };
            row("learn", &format!("{}, g {bound}", pattern.0), || {
                compare(
                    &mut [0; 8 * BATCH],
                    batches.len(),
                    |_| (),
                    run(learn_checked),
                    run(probe::learn),
                )
            });
        }
    }
}

/// Times sorting.
pub fn sorting() {
    for pattern in SORTED {
        let batches = inputs(pattern);
        let run = |sort: Sort| {
            let batches = &batches;
            move |[pages, sources]: &mut [[u32; BATCH]; 2]| {
                for batch in batches {
                    black_box(sort(black_box(batch), pages, sources));
                }
            }
        };
        row("sort", pattern.0, || {
            compare(
                &mut [[0; BATCH]; 2],
                batches.len(),
                |_| (),
                run(sort),
                run(probe::sort),
            )
        });
    }
}

/// The baseline's sorting, with the check of the pages that the library makes.
fn sort(batch: &[u32], pages: &mut [u32], arrivals: &mut [u32]) -> usize {
    assert!(batch.iter().fold(0, |bits, &page| bits | page) < 1 << 20);
    sort_batch(batch, pages, arrivals)
}

/// The baseline's learning, with the check of the order that the library makes.
fn learn_checked(written: &[u32], first: u32, bound: u32, out: &mut [u8]) -> usize {
    assert!(ascends(written));
    learn(written, first, bound, out)
}
