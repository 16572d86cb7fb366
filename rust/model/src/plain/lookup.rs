//! Lookup.

use super::{Lent, NOT_WRITTEN};
use crate::ops::{require, Refusal};

/// Lookup answers the page, or None for 'not written'. After 1 and 2: 4; 3, 'an
/// entry that is neither 4,294,967,295 (not written) nor a written page', its own.
pub fn lookup(lent: &Lent, logical_page: u32) -> Result<Option<u32>, Refusal> {
    let (device, state) = lent.open()?;
    require(logical_page < device.logical_pages, Refusal::OutOfRange)?;
    let entry = state.entries[logical_page as usize];
    require(state.allows(&device, entry), Refusal::NotSound)?;
    Ok(Some(entry).filter(|&page| page != NOT_WRITTEN))
}
