//! Flush.

use hedjosur_model::ops::{Flushed, Refusal};

use super::named::is_sound;
use super::table::{open, table, table_mut};
use crate::blocks::{opened_block, require};
use crate::sort::last_arrivals;

/// Flushes a batch; the plan gets the arrival index of each page written.
pub fn flush(state: &mut [u8], batch: &[u32], plan: &mut [u32]) -> Result<Flushed, Refusal> {
    let device = open(state)?;
    require(
        plan.len() == device.block_pages as usize,
        Refusal::BadLength,
    )?;
    let table = table(&device, state);
    require(is_sound(&device, &table, |_, _| ()), Refusal::NotSound)?;
    let block = opened_block(&device, table.counts, batch)?;

    let mut sorted = None;
    let written = last_arrivals(batch, plan, &mut sorted);
    Ok(Flushed {
        first: table_mut(&device, state).store(&device, block, written),
        count: written.len() as u32,
    })
}
