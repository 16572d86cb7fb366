//! Devices, and what is lent to calls on them: batches, plans, erased lists.

use std::collections::BTreeSet;

use super::Random;
use crate::device::{Device, GROUP_PAGES};

/// A device whose N is at its maximum.
pub fn full_device(blocks: u32, block_pages: u32, bound: u32) -> Device {
    let logical_pages = (blocks - 1) * block_pages / 2;
    Device::new([blocks, block_pages, logical_pages, bound]).expect("numbers inside their limits")
}

/// A small device: M 3 to 6, B 4 to 8, any g, N mostly at its maximum.
pub fn small_device(random: &mut Random) -> Device {
    let (blocks, block_pages) = (random.between(3, 6), random.between(4, 8));
    let bound = match random.once_in(3) {
        true => random.between(2, 15),
        false => random.below(2),
    };
    let device = full_device(blocks, block_pages, bound);
    let logical_pages = match random.once_in(4) {
        true => random.between(1, device.logical_pages),
        false => device.logical_pages,
    };
    Device {
        logical_pages,
        ..device
    }
}

/// A batch that flush accepts, in one of several patterns: sequential, strided,
/// clustered, around a group's edge, random, or with many repeats.
pub fn batch(random: &mut Random, device: &Device) -> Vec<u32> {
    let logical_pages = device.logical_pages;
    let length = random.between(1, device.block_pages);
    let start = random.below(logical_pages);
    let pattern = random.below(6);
    let stride = random.between(1, 9);
    let mut next = match pattern {
        3 => (logical_pages / GROUP_PAGES * GROUP_PAGES).saturating_sub(random.below(8)),
        _ => start,
    };
    let mut pages: Vec<u32> = (0..length)
        .map(|_| {
            let page = next % logical_pages;
            match pattern {
                0 => next += 1,
                1 => next += stride,
                2 | 3 => next += random.pick(&[1, 1, 1, 2, 3]),
                4 => next = random.below(logical_pages),
                _ => next = start + random.below(3),
            }
            page
        })
        .collect();
    if random.once_in(2) {
        random.shuffle(&mut pages);
    }
    pages
}

/// Sorted logical pages without repeats, as a batch is put on pages.
pub fn sorted_batch(random: &mut Random, device: &Device) -> Vec<u32> {
    let pages: BTreeSet<u32> = batch(random, device).into_iter().collect();
    pages.into_iter().collect()
}

/// A batch made wrong now and then: empty, too long, or with a logical page that is N
/// or more.
pub fn perhaps_wrong(
    random: &mut Random,
    mut batch: Vec<u32>,
    block_pages: u32,
    logical_pages: u32,
) -> Vec<u32> {
    match random.below(10) {
        0 => batch.clear(),
        1 => batch = batch.repeat(block_pages as usize + 1),
        2 | 3 => batch[0] = random.pick(&[logical_pages, logical_pages + 1, u32::MAX]),
        _ => {}
    }
    if random.once_in(12) {
        batch.push(u32::MAX);
    }
    batch
}

/// A logical page, now and then one that is N or more.
pub fn any_logical_page(random: &mut Random, logical_pages: u64) -> u32 {
    let beyond = logical_pages.min(1 << 31) as u32 + 1;
    match random.once_in(12) {
        true => u32::MAX,
        false => random.below(beyond),
    }
}

/// A list that is mostly as long as wanted.
pub fn any_list(random: &mut Random, wanted: u64) -> Vec<u32> {
    let length = match random.below(8) {
        0 => wanted + 1,
        1 => wanted.saturating_sub(1),
        _ => wanted,
    };
    // Only states with numbers outside limits could want more.
    (0..length.min(5000))
        .map(|_| random.bits() as u32)
        .collect()
}

/// A plan and an erased list of the right lengths, with contents that show what
/// was written.
pub fn lists(device: &Device) -> [Vec<u32>; 2] {
    [
        vec![777_777; device.block_pages as usize],
        vec![888_888; device.blocks as usize],
    ]
}
