//! Flush.

use super::{require, store, Refusal};
use crate::device::Device;
use crate::learn::last_arrivals;
use crate::sound::state_is_sound;
use crate::state::{free_blocks, Lent};

/// Flush 'answers first page and count'.
#[derive(Clone, Copy, Debug, PartialEq, Eq)]
pub struct Flushed {
    /// The first page written.
    pub first: u32,
    /// How many pages were written.
    pub count: u32,
}

/// Flush 'takes up to B logical pages in arrival order. It answers first page
/// and count, and writes into a plan of B entries (32 bits), for each page
/// written, the arrival index (from 0) stored there; later entries stay. After
/// 1 and 2: 3, state not sound; 5, batch empty or longer than B; 4, a logical
/// page is N or more; 6, fewer than two free blocks.' No page that it writes is
/// discarded any more.
pub fn flush(
    lent: &mut Lent,
    area: &mut [u32],
    batch: &[u32],
    plan: &mut [u32],
) -> Result<Flushed, Refusal> {
    let (device, state) = lent.open_mut()?;
    require(area.len() == device.spare_length(), Refusal::BadLength)?;
    require(
        plan.len() == device.block_pages as usize,
        Refusal::BadLength,
    )?;
    require(state_is_sound(&device, state), Refusal::NotSound)?;
    let block = opened_block(&device, &state.counts, batch)?;

    let sorted = sort(batch, plan);
    let first = store(&device, state, area, block, &sorted);
    for &logical_page in &sorted {
        state.marks[logical_page as usize] = false;
    }
    let count = sorted.len() as u32;
    Ok(Flushed { first, count })
}

/// The block that a flush opens in either engine, or its refusals 5, 4 and 6: 'the
/// lowest-numbered free block; a flush always opens a block, and a block is never
/// added to'.
pub(crate) fn opened_block(device: &Device, counts: &[u32], batch: &[u32]) -> Result<u32, Refusal> {
    let longest = device.block_pages as usize;
    require((1..=longest).contains(&batch.len()), Refusal::BadBatch)?;
    let exists = |&logical_page: &u32| logical_page < device.logical_pages;
    require(batch.iter().all(exists), Refusal::OutOfRange)?;
    let free = free_blocks(counts);
    require(free.len() >= 2, Refusal::NoFreeBlock)?;
    Ok(free[0])
}

/// The logical pages that a flush of this batch writes, in the order of their pages;
/// the plan gets 'for each page written, the arrival index (from 0) stored there'.
pub(crate) fn sort(batch: &[u32], plan: &mut [u32]) -> Vec<u32> {
    let kept = last_arrivals(batch);
    for (entry, &arrival) in plan.iter_mut().zip(kept.values()) {
        *entry = arrival;
    }
    kept.into_keys().collect()
}
