//! The plain engine, request d of document 02: 'an engine of one 32-bit page number
//! per logical page, with format, flush, lookup, discard and collection. From a
//! format, the same calls with rightly sized slices give the same pages, plans,
//! erased lists and refusals in both engines; predicted pages and level counts belong
//! to the learned one only. It is lent no spare area.'
//!
//! What document 01 says of flush and collection holds here too, so that the blocks
//! they open and take are those of [`crate::ops`].

mod collection;
mod discard;
mod flush;
mod format;
mod lookup;
mod state;

pub use collection::collection;
pub use discard::discard;
pub use flush::flush;
pub use format::format;
pub use lookup::lookup;
pub use state::{state_bytes, State, NOT_WRITTEN};

use crate::device::Device;

/// The plain engine's state slice as a call receives it.
pub type Lent = crate::state::Lent<State>;

/// What flush and collection have in common: puts sorted logical pages on the first
/// pages of a free block and enters their pages. Answers the first page.
fn store(device: &Device, state: &mut State, block: u32, sorted: &[u32]) -> u32 {
    let first = device.pages_of_block(block).start;
    state.counts[block as usize] = sorted.len() as u32;
    for (&logical_page, page) in sorted.iter().zip(first..) {
        state.entries[logical_page as usize] = page;
    }
    first
}
