//! Format.

use super::{Lent, State};
use crate::ops::Refusal;

/// Format writes M, B, N, g, frees all blocks and makes every logical page not
/// written. It refuses 1 and 2 as the learned engine's.
pub fn format(lent: &mut Lent, numbers: [u32; 4]) -> Result<(), Refusal> {
    let (device, state) = lent.open_for_format(numbers)?;
    *state = State::formatted(&device);
    Ok(())
}
