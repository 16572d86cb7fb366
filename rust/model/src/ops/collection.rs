//! Collection.

use std::collections::BTreeMap;

use super::lookup::seek;
use super::{require, store, Refusal};
use crate::device::Device;
use crate::sound::state_is_sound;
use crate::spare;
use crate::state::{free_blocks, used_blocks, Lent, State};

/// Collection 'answers first page (0 if count is 0), count and number erased'.
#[derive(Clone, Copy, Debug, PartialEq, Eq)]
pub struct Collected {
    /// The first page written, 0 if none.
    pub first: u32,
    /// How many pages were written.
    pub count: u32,
    /// How many blocks were erased.
    pub erased: u32,
}

/// Collection: 'valid pages are put, sorted by logical page, on the
/// lowest-numbered free block (none is needed for total 0) and learned; then the
/// taken blocks are erased. [...] the plan gets source pages, a second list (M
/// entries) the erased blocks in order; unused entries stay. After 1 and 2: 3; 8,
/// no block is used, or one is taken with total above 0; 6, a free block is
/// needed and none exists.'
pub fn collection(
    lent: &mut Lent,
    area: &mut [u32],
    plan: &mut [u32],
    erased: &mut [u32],
) -> Result<Collected, Refusal> {
    let (device, state) = lent.open_mut()?;
    require(area.len() == device.spare_length(), Refusal::BadLength)?;
    require(
        plan.len() == device.block_pages as usize,
        Refusal::BadLength,
    )?;
    require(erased.len() == device.blocks as usize, Refusal::BadLength)?;
    require(state_is_sound(&device, state), Refusal::NotSound)?;
    let taken = take(&device, &state.counts, |block| {
        valid_pages(&device, state, area, block)
    })?;

    let first = match taken.onto {
        Some(block) => store(&device, state, area, block, &taken.sorted()),
        None => 0,
    };
    for &block in &taken.blocks {
        spare::erase(&device, area, block);
        state.counts[block as usize] = 0;
    }
    Ok(taken.answer(first, plan, erased))
}

/// What a collection takes.
pub(crate) struct Taken {
    /// The blocks, in order.
    pub blocks: Vec<u32>,
    /// Each logical page to move, ascending, with the page it is on.
    moved: BTreeMap<u32, u32>,
    /// The block it opens; 'none is needed for total 0'.
    pub onto: Option<u32>,
}

/// What a collection takes in either engine, where a block's valid pages are told as
/// logical page and page, or its refusals 8 and 6.
pub(crate) fn take(
    device: &Device,
    counts: &[u32],
    valid_pages: impl Fn(u32) -> Vec<(u32, u32)>,
) -> Result<Taken, Refusal> {
    let blocks = taken_blocks(device, counts, &valid_pages);
    let moved: BTreeMap<u32, u32> = blocks.iter().copied().flat_map(valid_pages).collect();
    let gains = blocks.len() >= 2 || (blocks.len() == 1 && moved.is_empty());
    require(gains, Refusal::NothingToGain)?;
    let free = free_blocks(counts).first().copied();
    require(moved.is_empty() || free.is_some(), Refusal::NoFreeBlock)?;
    let onto = free.filter(|_| !moved.is_empty());
    Ok(Taken {
        blocks,
        moved,
        onto,
    })
}

impl Taken {
    /// The logical pages to move, 'sorted by logical page'.
    pub fn sorted(&self) -> Vec<u32> {
        self.moved.keys().copied().collect()
    }

    /// The answer, with both lists: 'the plan gets source pages, a second list (M
    /// entries) the erased blocks in order; unused entries stay'.
    pub fn answer(&self, first: u32, plan: &mut [u32], erased: &mut [u32]) -> Collected {
        for (entry, &source) in plan.iter_mut().zip(self.moved.values()) {
            *entry = source;
        }
        erased[..self.blocks.len()].copy_from_slice(&self.blocks);
        Collected {
            first,
            count: self.moved.len() as u32,
            erased: self.blocks.len() as u32,
        }
    }
}

/// 'Used blocks are ordered by valid pages, fewest first, ties by number, and
/// taken while the total is at most B.'
fn taken_blocks(
    device: &Device,
    counts: &[u32],
    valid_pages: impl Fn(u32) -> Vec<(u32, u32)>,
) -> Vec<u32> {
    let mut used: Vec<(usize, u32)> = used_blocks(counts)
        .into_iter()
        .map(|block| (valid_pages(block).len(), block))
        .collect();
    used.sort_unstable();
    let mut total = 0;
    used.into_iter()
        .take_while(|(valid, _)| {
            total += valid;
            total <= device.block_pages as usize
        })
        .map(|(_, block)| block)
        .collect()
}

/// The valid pages of a block, as logical page and page: 'a page is valid if its
/// middle entry is below N and lookup of that gives this page'. A lookup that
/// would refuse makes the page not valid, and so does a discard.
fn valid_pages(device: &Device, state: &State, area: &[u32], block: u32) -> Vec<(u32, u32)> {
    device
        .pages_of_block(block)
        .map(|page| (spare::middle(device, area, page), page))
        .filter(|&(logical_page, page)| {
            logical_page < device.logical_pages && {
                let answer = seek(device, state, area, logical_page);
                answer.is_ok_and(|found| found.page() == Some(page))
            }
        })
        .collect()
}
