//! Compaction and listing of a group.

use hedjosur_layout::{Part, SLOTS_AT, SLOT_BYTES};
use hedjosur_model::levels::GROUP_RECORDS;
use hedjosur_model::ops::Refusal;

use super::state::{open, regions, regions_mut};
use crate::blocks::require;
use crate::group;
use crate::numbers::Numbers;

/// A listing, which has the slots of a group.
const LISTING_BYTES: usize = GROUP_RECORDS * SLOT_BYTES;

/// Compacts a group; answers its records left.
pub fn compact(state: &mut [u8], number: u32) -> Result<usize, Refusal> {
    let device = open(state)?;
    let groups = regions_mut(&device, state).groups;
    let part = groups.get_mut(number as usize).ok_or(Refusal::OutOfRange)?;
    require_sound(&device, part, number)?;
    Ok(group::compact(part))
}

/// Writes a group's records, each with its level, to the front of `out`; answers
/// how many.
pub fn list(state: &[u8], number: u32, out: &mut [u8]) -> Result<usize, Refusal> {
    let device = open(state)?;
    require(out.len() == LISTING_BYTES, Refusal::BadLength)?;
    let groups = regions(&device, state).groups;
    let part = groups.get(number as usize).ok_or(Refusal::OutOfRange)?;
    require_sound(&device, part, number)?;
    let count = group::records(part);
    let length = SLOT_BYTES * count;
    out[..length].copy_from_slice(&part[SLOTS_AT..][..length]);
    Ok(count)
}

fn require_sound(device: &Numbers, part: &Part, number: u32) -> Result<(), Refusal> {
    let sound = group::sound(part, device.logical_pages, number);
    require(sound, Refusal::NotSound)
}
