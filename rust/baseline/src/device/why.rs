//! Telling why.

use hedjosur_model::device::{group_of, offset_of};
use hedjosur_model::ops::{Refusal, ENTRY_BYTES, WHY_ENTRIES};

use super::lookup::regions_for;
use super::marks;
use super::state::open;
use crate::group;

/// A buffer of as many entries as a group can have levels.
const WHY_BYTES: usize = WHY_ENTRIES * ENTRY_BYTES;

/// Writes an entry for each level that a lookup of a logical page looks at to the front
/// of `out`; answers how many.
pub fn why(state: &[u8], logical_page: u32, out: &mut [u8]) -> Result<usize, Refusal> {
    let device = open(state)?;
    let right_length: Result<&mut [u8; WHY_BYTES], _> = out.try_into();
    let (entries, _) = right_length
        .map_err(|_| Refusal::BadLength)?
        .as_chunks_mut();
    let regions = regions_for(&device, state, logical_page)?;
    if marks::is_discarded(regions.marks, logical_page) {
        return Ok(0);
    }
    let part = &regions.groups[group_of(logical_page)];
    Ok(group::why(part, offset_of(logical_page), entries))
}
