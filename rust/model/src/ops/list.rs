//! Listing.

use super::{require, Refusal};
use crate::levels::Group;
use crate::sound::group_is_sound;
use crate::state::Lent;

/// Listing 'takes a group, refuses as compaction' and changes nothing.
pub fn list(lent: &Lent, group: u32) -> Result<&Group, Refusal> {
    let (device, state) = lent.open()?;
    let number = group as usize;
    let group = state.groups.get(number).ok_or(Refusal::OutOfRange)?;
    require(group_is_sound(&device, number, group), Refusal::NotSound)?;
    Ok(group)
}
