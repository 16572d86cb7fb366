//! Discard.

use hedjosur_model::ops::Refusal;
use hedjosur_model::plain::NOT_WRITTEN;

use super::lookup::open_for;
use super::table::table_mut;

/// Makes a logical page not written.
#[inline]
pub fn discard(state: &mut [u8], logical_page: u32) -> Result<(), Refusal> {
    let (device, _) = open_for(state, logical_page)?;
    let entries = table_mut(&device, state).entries;
    entries[logical_page as usize] = NOT_WRITTEN.to_le_bytes();
    Ok(())
}
