//! Collection.

use hedjosur_model::ops::{Collected, Refusal};

use super::named::is_sound;
use super::table::{open, table, table_mut, Entry};
use crate::blocks::{require, Choice, Tally, BLOCKS, FREE};
use crate::numbers::Numbers;
use crate::sort::BATCH;

/// How many entries are looked at at once.
const AT_ONCE: usize = 16;

/// How many pages in a row are told from others at once, without a division.
const SPAN: usize = 256;

/// Stands for the valid pages of a block that is taken and has some.
const MOVED: u16 = u16::MAX;

/// Collects the blocks with the fewest valid pages; the plan gets source pages,
/// `erased` the blocks in the order in which they were taken.
pub fn collect(
    state: &mut [u8],
    plan: &mut [u32],
    erased: &mut [u32],
) -> Result<Collected, Refusal> {
    let device = open(state)?;
    let [plan_length, erased_length] = [device.block_pages, device.blocks].map(|n| n as usize);
    require(plan.len() == plan_length, Refusal::BadLength)?;
    require(erased.len() == erased_length, Refusal::BadLength)?;
    let regions = table(&device, state);
    let mut tally = [0; BLOCKS];
    let sound = is_sound(&device, &regions, |block, valid| tally[block] = valid);
    require(sound, Refusal::NotSound)?;
    let mut choice = Choice::of(&device, regions.counts, &tally)?;

    let taken = choice.list(regions.counts, &tally, erased);
    let first = match choice.onto {
        Some(block) => {
            let sources = &mut plan[..choice.valid];
            let pages = gather(&device, regions.entries, taken, &mut tally, sources);
            table_mut(&device, state).store(&device, block, &pages[..choice.valid])
        }
        None => 0,
    };
    let counts = table_mut(&device, state).counts;
    for &block in taken {
        counts[block as usize] = FREE;
    }
    Ok(choice.answer(first))
}

/// The pages to move of the taken blocks, where there are as many as sources: the entries
/// that name one, in a pass that meets the logical pages in their order. Answers these.
fn gather(
    device: &Numbers,
    entries: &[Entry],
    taken: &[u32],
    tally: &mut Tally,
    sources: &mut [u32],
) -> [u32; BATCH] {
    let is_near = mark_moved(device, taken, tally);
    let near = |&entry: &Entry| is_near[(u32::from_le_bytes(entry) as usize / SPAN).min(BLOCKS)];
    let is_moved = |entry| tally.get(device.block_of(entry)) == Some(&MOVED);
    let mut logical_pages = [0; BATCH];
    let mut moves = sources.iter_mut().zip(&mut logical_pages);
    let mut look_at = |part: &[Entry], from: usize| {
        for (&entry, logical_page) in part.iter().zip(from as u32..) {
            let entry = u32::from_le_bytes(entry);
            if is_moved(entry) {
                let (source, moved) = moves.next().expect("a page to move");
                (*source, *moved) = (entry, logical_page);
            }
        }
    };
    let (parts, rest) = entries.as_chunks::<AT_ONCE>();
    for (at, part) in parts.iter().enumerate() {
        if part.iter().fold(0, |any, entry| any | near(entry)) != 0 {
            look_at(part, AT_ONCE * at);
        }
    }
    look_at(rest, AT_ONCE * parts.len());
    logical_pages
}

/// Has a tally tell the taken blocks that have valid pages, and answers, for each span of
/// pages, 1 where such a block has some of them. Behind the last there is one more, for
/// entries that name no page.
fn mark_moved(device: &Numbers, taken: &[u32], tally: &mut Tally) -> [u8; BLOCKS + 1] {
    let mut is_near = [0; BLOCKS + 1];
    for &block in taken {
        let valid = &mut tally[block as usize];
        if *valid > 0 {
            *valid = MOVED;
            let first = (block * device.block_pages) as usize;
            let last = first + device.block_pages as usize - 1;
            is_near[first / SPAN..=last / SPAN].fill(1);
        }
    }
    is_near
}
