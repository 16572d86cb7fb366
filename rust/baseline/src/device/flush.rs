//! Flush, and the block that it and a collection write.

use hedjosur_model::device::{group_of, offset_of};
use hedjosur_model::ops::{Flushed, Refusal};

use super::state::{is_sound, open_with, regions, regions_mut, RegionsMut};
use super::{marks, spare};
use crate::blocks::{opened_block, require};
use crate::group;
use crate::learn::{parts, Learner, Run};
use crate::numbers::Numbers;
use crate::offsets::Offsets;
use crate::sort::{last_arrivals, BATCH};

/// Flushes a batch; the plan gets the arrival index of each page written.
pub fn flush(
    state: &mut [u8],
    area: &mut [u32],
    batch: &[u32],
    plan: &mut [u32],
) -> Result<Flushed, Refusal> {
    let device = open_with(state, area)?;
    require(
        plan.len() == device.block_pages as usize,
        Refusal::BadLength,
    )?;
    require(is_sound(&device, state), Refusal::NotSound)?;
    let block = opened_block(&device, regions(&device, state).counts, batch)?;

    let mut sorted = None;
    let written = last_arrivals(batch, plan, &mut sorted);
    Ok(Flushed {
        first: store(&device, state, area, block, written),
        count: written.len() as u32,
    })
}

/// Puts sorted logical pages on a block, learns them and takes the records in; none
/// of them is discarded any more, as none was that a collection moves. Answers the
/// first page.
pub(super) fn store(
    device: &Numbers,
    state: &mut [u8],
    area: &mut [u32],
    block: usize,
    written: &[u32],
) -> u32 {
    spare::write(device, area, block, written);
    let RegionsMut {
        counts,
        marks,
        groups,
    } = regions_mut(device, state);
    counts[block] = (written.len() as u16).to_le_bytes();

    let first = block as u32 * device.block_pages;
    let mut learner = Learner::new(written, first, device.bound);
    let mut runs = [Run::default(); BATCH];
    for part in parts(written) {
        let number = group_of(written[part.start]);
        let mut count = 0;
        learner.learn(part, |run| {
            runs[count] = run;
            count += 1;
        });
        let runs = &runs[..count];
        group::take(&mut groups[number], runs, |run| members(run, written));
        if !marks::discarded(marks, number).is_empty() {
            let offsets = runs.iter().map(|run| members(run, written));
            let offsets = offsets.fold(Offsets::NONE, |all, one| all | one);
            marks::clear(marks, number, offsets);
        }
    }
    first
}

/// The members of a run's record.
#[inline]
fn members(run: &Run, written: &[u32]) -> Offsets {
    match run.record.is_approximate() {
        true => {
            let taken = &written[usize::from(run.place)..][..usize::from(run.length)];
            taken.iter().map(|&page| offset_of(page)).collect()
        }
        false => run.record.exact_members(),
    }
}
