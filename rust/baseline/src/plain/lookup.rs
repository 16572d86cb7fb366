//! Lookup.

use hedjosur_model::ops::Refusal;
use hedjosur_model::plain::NOT_WRITTEN;

use super::table::{open, table, Table};
use crate::blocks::{require, Count};
use crate::numbers::Numbers;

/// Looks a logical page up: its page, if it is written.
#[inline]
pub fn lookup(state: &[u8], logical_page: u32) -> Result<Option<u32>, Refusal> {
    let (_, entry) = open_for(state, logical_page)?;
    Ok((entry != NOT_WRITTEN).then_some(entry))
}

/// The numbers of a state and the entry of a logical page, or refusal 1, 2, 4 or 3.
#[inline(always)]
pub(super) fn open_for(state: &[u8], logical_page: u32) -> Result<(Numbers, u32), Refusal> {
    let device = open(state)?;
    let Table { counts, entries } = table(&device, state);
    let entry = entries.get(logical_page as usize);
    let entry = u32::from_le_bytes(*entry.ok_or(Refusal::OutOfRange)?);
    let sound = entry == NOT_WRITTEN || is_written(&device, counts, entry);
    require(sound, Refusal::NotSound)?;
    Ok((device, entry))
}

/// Whether a page exists and its place in its block is below the block's count.
#[inline]
fn is_written(device: &Numbers, counts: &[Count], page: u32) -> bool {
    let block = device.block_of(page);
    counts.get(block).is_some_and(|&count| {
        let place = page - block as u32 * device.block_pages;
        place < u16::from_le_bytes(count).into()
    })
}
