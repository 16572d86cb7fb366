//! Format.

use hedjosur_layout::SLOTS_AT;
use hedjosur_model::ops::Refusal;
use hedjosur_model::spare::NOBODY;

use super::state::regions_mut;
use crate::blocks::{require, FREE};
use crate::numbers::Numbers;

/// Formats a device of M, B, N and g. Of a group only its head is written: the rest
/// means nothing while no slot is used and no offset owned.
pub fn format(state: &mut [u8], area: &mut [u32], numbers: [u32; 4]) -> Result<(), Refusal> {
    let device = Numbers::new(numbers).ok_or(Refusal::BadNumbers)?;
    require(state.len() == device.state_bytes(), Refusal::BadLength)?;
    require(area.len() == device.spare_entries(), Refusal::BadLength)?;
    device.write(state);
    let regions = regions_mut(&device, state);
    regions.counts.fill(FREE);
    regions.marks.fill(0);
    for part in regions.groups {
        part[..SLOTS_AT].fill(0);
    }
    area.fill(NOBODY);
    Ok(())
}
