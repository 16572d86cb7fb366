//! Flush.

use super::{store, Lent};
use crate::ops::{opened_block, require, sort, Flushed, Refusal};

/// Flush, with the refusals of the learned engine's in their order; 3 is a state
/// that is not sound as the plain one has to be.
pub fn flush(lent: &mut Lent, batch: &[u32], plan: &mut [u32]) -> Result<Flushed, Refusal> {
    let (device, state) = lent.open_mut()?;
    require(
        plan.len() == device.block_pages as usize,
        Refusal::BadLength,
    )?;
    require(state.is_sound(&device), Refusal::NotSound)?;
    let block = opened_block(&device, &state.counts, batch)?;

    let sorted = sort(batch, plan);
    let first = store(&device, state, block, &sorted);
    let count = sorted.len() as u32;
    Ok(Flushed { first, count })
}
