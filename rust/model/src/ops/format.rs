//! Format.

use super::{require, Refusal};
use crate::spare::NOBODY;
use crate::state::{Lent, State};

/// Format 'writes M, B, N, g, frees all blocks, empties all groups and fills
/// every spare entry with 4,294,967,295. It refuses 1 when a device number is
/// outside its limits, then 2 when state or spare area hasn't exactly the length
/// these numbers give.' It 'clears all marks', and the bits behind the last one.
pub fn format(lent: &mut Lent, area: &mut [u32], numbers: [u32; 4]) -> Result<(), Refusal> {
    let (device, state) = lent.open_for_format(numbers)?;
    require(area.len() == device.spare_length(), Refusal::BadLength)?;

    *state = State::formatted(&device);
    area.fill(NOBODY);
    Ok(())
}
