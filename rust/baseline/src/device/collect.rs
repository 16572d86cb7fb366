//! Collection.

use hedjosur_model::device::{group_of, offset_of};
use hedjosur_model::ops::{Collected, Refusal};

use super::flush::store;
use super::lookup::{predict, resolve};
use super::state::{is_sound, open_with, regions, regions_mut, Regions};
use super::{marks, spare};
use crate::blocks::{require, Choice, Tally, BLOCKS, FREE};
use crate::group::{self, Lines, Predictions};
use crate::numbers::{block_of, Numbers};
use crate::sort::{sort_batch, BATCH};

/// Collects the blocks with the fewest valid pages; the plan gets source pages,
/// `erased` the blocks in the order in which they were taken.
pub fn collect(
    state: &mut [u8],
    area: &mut [u32],
    plan: &mut [u32],
    erased: &mut [u32],
) -> Result<Collected, Refusal> {
    let device = open_with(state, area)?;
    let [plan_length, erased_length] = [device.block_pages, device.blocks].map(|n| n as usize);
    require(plan.len() == plan_length, Refusal::BadLength)?;
    require(erased.len() == erased_length, Refusal::BadLength)?;
    require(is_sound(&device, state), Refusal::NotSound)?;
    let regions = regions(&device, state);
    let counts = regions.counts;
    let tally = tally(&device, &regions, area);
    let mut choice = Choice::of(&device, counts, &tally)?;

    let taken = choice.list(counts, &tally, erased);
    let first = match choice.onto {
        Some(block) => {
            let mut moves = Moves::none();
            for &block in taken {
                moves.add(&device, &regions, area, block, tally[block as usize]);
            }
            let pages = moves.sorted(plan);
            store(&device, state, area, block, &pages[..choice.valid])
        }
        None => 0,
    };
    let counts = regions_mut(&device, state).counts;
    for &block in taken {
        spare::erase(&device, area, block as usize);
        counts[block as usize] = FREE;
    }
    Ok(choice.answer(first))
}

/// The valid pages of each block, counted by logical page: each has at most one.
fn tally(device: &Numbers, regions: &Regions, area: &[u32]) -> Tally {
    let mut tally = [0; BLOCKS];
    let (mut lines, mut predictions) = (Lines::none(), Predictions::none());
    let reciprocal = device.reciprocal();
    for (number, part) in regions.groups.iter().enumerate() {
        if group::records(part) == 0 {
            continue;
        }
        predict(regions, number, &mut lines, &mut predictions);
        for offset in predictions.written().iter() {
            let predicted = predictions.page(offset);
            let logical_page = 256 * number as u32 + u32::from(offset);
            if let Some(page) = valid_page(device, area, predicted, logical_page) {
                tally[block_of(page, reciprocal) % BLOCKS] += 1;
            }
        }
    }
    tally
}

/// The page of a logical page, if its middle entry names that.
#[inline]
fn valid_page(device: &Numbers, area: &[u32], predicted: u32, logical_page: u32) -> Option<u32> {
    let page = resolve(device, area, predicted, logical_page)?;
    let names = page == predicted || spare::middle(device, area, page) == logical_page;
    names.then_some(page)
}

/// The pages that are moved.
struct Moves {
    logical_pages: [u32; BATCH],
    sources: [u32; BATCH],
    count: usize,
}

impl Moves {
    fn none() -> Moves {
        Moves {
            logical_pages: [0; BATCH],
            sources: [0; BATCH],
            count: 0,
        }
    }

    /// Adds the valid pages of a block, which has so many.
    fn add(&mut self, device: &Numbers, regions: &Regions, area: &[u32], block: u32, valid: u16) {
        let end = self.count + usize::from(valid);
        let mut page = block * device.block_pages;
        while self.count < end {
            let logical_page = spare::middle(device, area, page);
            let exists = logical_page < device.logical_pages;
            if exists && is_at(device, regions, area, logical_page, page) {
                self.logical_pages[self.count] = logical_page;
                self.sources[self.count] = page;
                self.count += 1;
            }
            page += 1;
        }
    }

    /// Writes the sources to the front of the plan in the order of their logical
    /// pages, and answers these.
    fn sorted(&self, plan: &mut [u32]) -> [u32; BATCH] {
        let mut sorted = [0; BATCH];
        sort_batch(&self.logical_pages[..self.count], &mut sorted, plan);
        for source in &mut plan[..self.count] {
            *source = self.sources[*source as usize];
        }
        sorted
    }
}

/// Whether lookup of a logical page gives a page.
fn is_at(device: &Numbers, regions: &Regions, area: &[u32], logical_page: u32, page: u32) -> bool {
    if marks::is_discarded(regions.marks, logical_page) {
        return false;
    }
    let offset = offset_of(logical_page);
    let found = group::find(&regions.groups[group_of(logical_page)], offset);
    found.record.is_some_and(|record| {
        resolve(device, area, record.predicted(offset), logical_page) == Some(page)
    })
}
