//! Discard.

use super::{lookup, Lent, NOT_WRITTEN};
use crate::ops::Refusal;

/// Discard makes a logical page not written, whether it was written or not, and
/// changes nothing else. It refuses 'as lookup does'.
pub fn discard(lent: &mut Lent, logical_page: u32) -> Result<(), Refusal> {
    lookup(lent, logical_page)?;
    let (_, state) = lent.open_mut()?;
    state.entries[logical_page as usize] = NOT_WRITTEN;
    Ok(())
}
