//! Format.

use hedjosur_model::ops::Refusal;
use hedjosur_model::plain::NOT_WRITTEN;

use super::table::{table_mut, TableMut};
use crate::blocks::{require, FREE};
use crate::numbers::Numbers;

/// Formats a device of M, B, N and g.
pub fn format(state: &mut [u8], numbers: [u32; 4]) -> Result<(), Refusal> {
    let device = Numbers::new(numbers).ok_or(Refusal::BadNumbers)?;
    let length = device.plain_state_bytes();
    require(state.len() == length, Refusal::BadLength)?;
    device.write(state);
    let TableMut { counts, entries } = table_mut(&device, state);
    counts.fill(FREE);
    entries.fill(NOT_WRITTEN.to_le_bytes());
    Ok(())
}
