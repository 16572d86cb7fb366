//! The batches that are tried.

use std::collections::BTreeSet;

use hedjosur_model::testing::{full_device, sorted_batch, Random};

use crate::judge::Batch;

/// Eleven logical pages, out of which batches are made.
pub type Eleven = [u32; 11];

/// Neighbours inside one group.
pub const NEIGHBOURS: Eleven = [100, 101, 102, 103, 104, 105, 106, 107, 108, 109, 110];
/// Neighbours around a group's edge.
pub const EDGE: Eleven = [250, 251, 252, 253, 254, 255, 256, 257, 258, 259, 260];
/// Strides of 1, 2 and 3 one after the other, then steps of 4 and 1: accurate and
/// approximate runs compete.
pub const STRIDES: Eleven = [7, 8, 9, 11, 13, 15, 18, 21, 24, 28, 29];
/// Spread over a whole group.
pub const SPREAD: Eleven = [0, 3, 31, 64, 65, 99, 130, 171, 200, 252, 255];
/// Spread over two groups.
pub const TWO_GROUPS: Eleven = [1, 2, 3, 4, 16, 254, 255, 256, 299, 303, 511];

/// Every batch out of eleven logical pages; an empty one is refused.
pub fn subsets(eleven: &Eleven) -> impl Iterator<Item = Vec<u32>> + '_ {
    (1..1u32 << 11).map(|bits| {
        let chosen = eleven
            .iter()
            .zip(0..)
            .filter(|(_, bit)| bits >> bit & 1 == 1);
        chosen.map(|(&page, _)| page).collect()
    })
}

/// Any batch of at most 64 pages, with any bound.
pub fn any_batch(random: &mut Random) -> Batch {
    placed(random, 9, 64)
}

/// Any batch of at most 256 pages, over up to four groups, with any bound. Half of them
/// have all 256 pages, or as many as there is room for, and steps of one size or mixed.
pub fn long_batch(random: &mut Random) -> Batch {
    let mut batch = placed(random, 9, 256);
    if random.once_in(2) {
        let steps = random.pick(&[[1, 1, 1, 2], [1, 1, 3, 7], [2, 2, 2, 2], [1, 2, 4, 5]]);
        let mut next = random.below(256);
        let pages = (0..256).map(|_| {
            next += random.pick(&steps);
            next
        });
        batch.sorted = pages.take_while(|&page| page < 1024).collect();
    }
    batch
}

/// Any batch for a device with so many blocks of so many pages.
fn placed(random: &mut Random, blocks: u32, block_pages: u32) -> Batch {
    let device = full_device(blocks, block_pages, random.below(16));
    let block = random.below(blocks);
    Batch {
        bound: device.bound,
        first: device.pages_of_block(block).start,
        sorted: sorted_batch(random, &device),
    }
}

/// Any batch of at most eight pages, near each other or far apart, with a small bound
/// mostly.
pub fn small_batch(random: &mut Random) -> Batch {
    let (room, count) = (random.pick(&[9, 20, 256, 300]), random.between(1, 8));
    let pages = (0..count).map(|_| random.below(room));
    let sorted = Vec::from_iter(BTreeSet::from_iter(pages));
    Batch {
        bound: random.pick(&[0, 1, 1, 1, 2, 3, 15]),
        first: random.below(2) * 64,
        sorted,
    }
}
