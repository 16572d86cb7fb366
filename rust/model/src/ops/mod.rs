//! The operations. Each takes what is lent to it and refuses in the document's
//! order; a refused call changes nothing.

mod agreement;
mod collection;
mod compaction;
mod discard;
mod flush;
mod format;
mod list;
mod lookup;
mod refusal;
mod why;

pub use agreement::agreement;
pub use collection::{collection, Collected};
pub use compaction::compaction;
pub use discard::discard;
pub use flush::{flush, Flushed};
pub use format::format;
pub use list::list;
pub use lookup::{lookup, Lookup};
pub use refusal::Refusal;
pub use why::{reasons, why, Reason, WhyEntry, ENTRY_BYTES, WHY_BYTES, WHY_ENTRIES};

pub(crate) use collection::take;
pub(crate) use flush::{opened_block, sort};

use crate::device::Device;
use crate::learn::learn;
use crate::spare;
use crate::state::State;

/// Goes on if the condition holds, else refuses.
pub(crate) fn require(condition: bool, refusal: Refusal) -> Result<(), Refusal> {
    match condition {
        true => Ok(()),
        false => Err(refusal),
    }
}

/// What flush and collection have in common: puts sorted logical pages on the
/// first pages of a free block, learns them and hands the records to the table.
/// Answers the first page.
fn store(device: &Device, state: &mut State, area: &mut [u32], block: u32, sorted: &[u32]) -> u32 {
    let first = device.pages_of_block(block).start;
    spare::write(device, area, block, sorted);
    state.counts[block as usize] = sorted.len() as u32;
    let learned = learn(device.bound, first, sorted);
    for (number, group) in state.groups.iter_mut().enumerate() {
        let batch = learned.iter().filter(|one| one.group == number);
        group.take(batch.map(|one| one.record.clone()).collect());
    }
    first
}
