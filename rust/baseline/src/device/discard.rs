//! Discard.

use hedjosur_model::ops::Refusal;

use super::lookup::open_for;
use super::marks;
use super::state::regions_mut;

/// Marks a logical page discarded.
pub fn discard(state: &mut [u8], area: &[u32], logical_page: u32) -> Result<(), Refusal> {
    let (device, _) = open_for(state, area, logical_page)?;
    marks::mark(regions_mut(&device, state).marks, logical_page);
    Ok(())
}
