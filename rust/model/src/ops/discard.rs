//! Discard.

use super::lookup::open_for;
use super::Refusal;
use crate::state::Lent;

/// Discard 'takes a logical page and marks it discarded', written or not, and
/// changes nothing else. 'It refuses 1, 2, 4 and 3 as lookup does.'
pub fn discard(lent: &mut Lent, area: &[u32], logical_page: u32) -> Result<(), Refusal> {
    open_for(lent, area, logical_page)?;
    let (_, state) = lent.open_mut()?;
    state.marks[logical_page as usize] = true;
    Ok(())
}
