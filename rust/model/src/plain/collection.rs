//! Collection.

use super::{store, Lent, State};
use crate::device::Device;
use crate::ops::{require, take, Collected, Refusal};

/// Collection, with the refusals of the learned engine's in their order; 3 is a state
/// that is not sound as the plain one has to be.
pub fn collection(
    lent: &mut Lent,
    plan: &mut [u32],
    erased: &mut [u32],
) -> Result<Collected, Refusal> {
    let (device, state) = lent.open_mut()?;
    require(
        plan.len() == device.block_pages as usize,
        Refusal::BadLength,
    )?;
    require(erased.len() == device.blocks as usize, Refusal::BadLength)?;
    require(state.is_sound(&device), Refusal::NotSound)?;
    let taken = take(&device, &state.counts, |block| {
        valid_pages(&device, state, block)
    })?;

    let first = match taken.onto {
        Some(block) => store(&device, state, block, &taken.sorted()),
        None => 0,
    };
    for &block in &taken.blocks {
        state.counts[block as usize] = 0;
    }
    Ok(taken.answer(first, plan, erased))
}

/// The valid pages of a block, as logical page and page: 'a page is valid if an entry
/// names it'.
fn valid_pages(device: &Device, state: &State, block: u32) -> Vec<(u32, u32)> {
    let pages = device.pages_of_block(block);
    (0..)
        .zip(&state.entries)
        .map(|(logical_page, &page)| (logical_page, page))
        .filter(|(_, page)| pages.contains(page))
        .collect()
}
