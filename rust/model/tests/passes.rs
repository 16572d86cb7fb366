//! The pass over the block that a flush or collection opens, stopped after any
//! number of entries.

use std::collections::BTreeSet;

use hedjosur_model::device::Device;
use hedjosur_model::ops;
use hedjosur_model::spare::{self, NOBODY};
use hedjosur_model::state::free_blocks;
use hedjosur_model::testing::{
    any_area, batch, full_device, lists, rounds, small_device, Random, World,
};

/// What is lent to a pass.
#[derive(Debug)]
struct Opened {
    device: Device,
    area: Vec<u32>,
    block: u32,
    written: Vec<u32>,
}

impl Opened {
    /// Any block with any logical pages for it, none to B of them, in an area of any
    /// contents.
    fn any(random: &mut Random, device: Device) -> Opened {
        let area = match random.once_in(2) {
            true => any_area(random, &device),
            false => garbage(random, device.spare_length()),
        };
        let count = random.between(0, device.block_pages);
        let logical_pages = (0..count).map(|_| random.below(device.logical_pages));
        let written = logical_pages.collect();
        Opened {
            device,
            area,
            block: random.below(device.blocks),
            written,
        }
    }

    /// How many entries the block has.
    fn entries(&self) -> usize {
        (self.device.block_pages * (2 * self.device.bound + 1)) as usize
    }

    /// Where they begin.
    fn from(&self) -> usize {
        self.block as usize * self.entries()
    }

    /// The area after the pass is stopped.
    fn stopped(&self, stop: usize) -> Vec<u32> {
        let mut area = self.area.clone();
        spare::pass(&self.device, &mut area, self.block, &self.written, stop);
        area
    }

    /// The area after erase and programming.
    fn programmed(&self) -> Vec<u32> {
        programmed(&self.device, &self.area, self.block, &self.written)
    }
}

/// So many entries of any value.
fn garbage(random: &mut Random, length: usize) -> Vec<u32> {
    (0..length).map(|_| random.bits() as u32).collect()
}

/// A small device, each bound as often as any other.
fn any_device(random: &mut Random) -> Device {
    let bound = random.below(16);
    Device {
        bound,
        ..small_device(random)
    }
}

/// Document 01's erase of a block, and then the programming of its first pages: the
/// logical page on each is named there and on the others programmed within g of it.
/// Nothing here is the model's.
fn programmed(device: &Device, area: &[u32], block: u32, written: &[u32]) -> Vec<u32> {
    let [block_pages, bound] = [device.block_pages, device.bound].map(|number| number as usize);
    let width = 2 * bound + 1;
    let mut area = area.to_vec();
    let block = &mut area[block as usize * block_pages * width..][..block_pages * width];
    block.fill(4_294_967_295);
    for (on, &logical_page) in written.iter().enumerate() {
        for page in 0..written.len() {
            // Entry j of page p is about page p − g + j.
            if page.abs_diff(on) <= bound {
                block[page * width + on + bound - page] = logical_page;
            }
        }
    }
    area
}

/// 'The pass, stopped after any k entries, leaves the block's first k final and every
/// other byte as lent.'
fn assert_first_are_final(opened: &Opened) {
    let (from, programmed) = (opened.from(), opened.programmed());
    for stop in 0..=opened.entries() {
        let (to, stopped) = (from + stop, opened.stopped(stop));
        assert!(stopped[from..to] == programmed[from..to], "stop {stop}");
        assert!(stopped[..from] == opened.area[..from], "stop {stop}");
        assert!(stopped[to..] == opened.area[to..], "stop {stop}");
    }
}

/// From a stop to the next at most one entry changes, the next of the block: each is
/// 'written a single time', and in order.
fn assert_one_after_the_other(opened: &Opened) {
    let mut before = opened.stopped(0);
    assert!(before == opened.area);
    for stop in 0..opened.entries() {
        let after = opened.stopped(stop + 1);
        let next = opened.from() + stop;
        assert!(before[..next] == after[..next], "stop {stop}");
        assert!(before[next + 1..] == after[next + 1..], "stop {stop}");
        before = after;
    }
}

#[test]
fn the_first_entries_are_final_and_the_others_as_lent() {
    rounds(600, &mut (), |random, log, ()| {
        let device = any_device(random);
        let opened = Opened::any(random, device);
        log.note(&opened);
        assert_first_are_final(&opened);
    });
}

#[test]
fn each_entry_is_written_once_and_in_order() {
    rounds(600, &mut (), |random, log, ()| {
        let device = any_device(random);
        let opened = Opened::any(random, device);
        log.note(&opened);
        assert_one_after_the_other(&opened);
    });
}

#[test]
fn larger_devices() {
    let mut random = Random::new(0);
    for (blocks, block_pages, bound) in [(3, 256, 0), (4, 64, 4), (3, 256, 15)] {
        let opened = Opened::any(&mut random, full_device(blocks, block_pages, bound));
        assert_first_are_final(&opened);
        assert_one_after_the_other(&opened);
    }
}

/// 'The layer counts this as erase and programming', whether some pages stay unused,
/// or all, or none.
#[test]
fn the_whole_pass_is_erase_and_programming() {
    let mut used = BTreeSet::new();
    rounds(2000, &mut used, |random, log, used| {
        let device = any_device(random);
        let opened = Opened::any(random, device);
        log.note(&opened);
        let whole = opened.stopped(opened.entries());
        assert_eq!(whole, opened.programmed());
        // Flush and collection make the whole pass; a later stop stops nothing.
        let mut area = opened.area.clone();
        spare::write(&device, &mut area, opened.block, &opened.written);
        assert_eq!(area, whole);
        assert_eq!(opened.stopped(usize::MAX), whole);
        // The unused pages name nobody.
        let count = opened.written.len();
        for page in device.pages_of_block(opened.block).skip(count) {
            let named = spare::entries(&device, &whole, page);
            assert!(named.iter().all(|&entry| entry == NOBODY));
        }
        if count == 0 {
            area.clone_from(&opened.area);
            spare::erase(&device, &mut area, opened.block);
            assert_eq!(area, whole);
        }
        used.insert((count > 0, count < device.block_pages as usize));
    });
    assert_eq!(used.len(), 3, "none, some or all pages were never used");
}

/// M 3, B 4, N 4, g 1: logical pages 1 and 3 on block 1, where every entry was 9.
#[test]
fn a_pass_stop_by_stop() {
    let opened = Opened {
        device: full_device(3, 4, 1),
        area: vec![9; 36],
        block: 1,
        written: vec![1, 3],
    };
    let block = |stop| opened.stopped(stop)[12..24].to_vec();
    const NO: u32 = NOBODY;
    assert_eq!(block(0), [9, 9, 9, 9, 9, 9, 9, 9, 9, 9, 9, 9]);
    assert_eq!(block(1), [NO, 9, 9, 9, 9, 9, 9, 9, 9, 9, 9, 9]);
    assert_eq!(block(3), [NO, 1, 3, 9, 9, 9, 9, 9, 9, 9, 9, 9]);
    assert_eq!(block(5), [NO, 1, 3, 1, 3, 9, 9, 9, 9, 9, 9, 9]);
    // Page 6 is beside page 5 and unused.
    assert_eq!(block(7), [NO, 1, 3, 1, 3, NO, NO, 9, 9, 9, 9, 9]);
    assert_eq!(block(11), [NO, 1, 3, 1, 3, NO, NO, NO, NO, NO, NO, 9]);
    assert_eq!(block(12), [NO, 1, 3, 1, 3, NO, NO, NO, NO, NO, NO, NO]);
}

/// A device that was in use, with any entries in its free blocks.
fn any_world(random: &mut Random, device: &Device) -> World {
    let mut world = World::lived_in(random, device);
    let length = world.area.len() / device.blocks as usize;
    for block in free_blocks(&world.state_mut().counts) {
        let garbage = garbage(random, length);
        world.area[block as usize * length..][..length].copy_from_slice(&garbage);
    }
    world
}

/// A flush leaves its block erased and programmed, whatever was there, and no other
/// entry changed.
#[test]
fn a_flush_writes_its_block_alone() {
    let mut flushes = 0;
    rounds(1500, &mut flushes, |random, log, flushes| {
        let device = any_device(random);
        let mut world = any_world(random, &device);
        let batch = batch(random, &device);
        log.note((&world, &batch));
        let before = world.area.clone();
        let Ok(flushed) = world.flush(&batch) else {
            assert_eq!(world.area, before);
            return;
        };
        *flushes += 1;
        let written = Vec::from_iter(BTreeSet::from_iter(batch));
        let block = flushed.first / device.block_pages;
        assert_eq!(world.area, programmed(&device, &before, block, &written));
    });
    assert!(flushes > 0, "no flush was accepted");
}

/// A collection does the same, and 'then the taken blocks are erased'; without a page
/// to move it opens no block.
#[test]
fn a_collection_writes_its_block_and_erases_others() {
    let mut collections = [0, 0];
    rounds(1500, &mut collections, |random, log, collections| {
        let device = any_device(random);
        let mut world = any_world(random, &device);
        log.note(&world);
        let before = world.area.clone();
        let [mut plan, mut erased] = lists(&device);
        let World { lent, area } = &mut world;
        let Ok(collected) = ops::collection(lent, area, &mut plan, &mut erased) else {
            assert_eq!(world.area, before);
            return;
        };
        let sources = &plan[..collected.count as usize];
        let middle = |&page: &u32| spare::middle(&device, &before, page);
        let written: Vec<u32> = sources.iter().map(middle).collect();
        let mut expected = before.clone();
        if !written.is_empty() {
            let block = collected.first / device.block_pages;
            expected = programmed(&device, &expected, block, &written);
        }
        for &block in &erased[..collected.erased as usize] {
            expected = programmed(&device, &expected, block, &[]);
        }
        assert_eq!(world.area, expected);
        collections[usize::from(written.is_empty())] += 1;
    });
    assert!(collections[0] > 0, "no collection moved a page");
    assert!(collections[1] > 0, "no collection had nothing to move");
}
