//! Compaction.

use super::{list, Refusal};
use crate::state::Lent;

/// Compaction 'takes a group number and answers its records left. After 1 and
/// 2: 4, no such group; 3, that group not sound.' It is lent no spare area.
pub fn compaction(lent: &mut Lent, group: u32) -> Result<usize, Refusal> {
    list(lent, group)?;
    let (_, state) = lent.open_mut()?;
    let group = &mut state.groups[group as usize];
    group.compact();
    Ok(group.size())
}
