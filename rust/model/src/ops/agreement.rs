//! Agreement.

use super::lookup::{seek, Lookup};
use super::{require, Refusal};
use crate::device::Device;
use crate::sound::state_is_sound;
use crate::state::{Lent, State};

/// Agreement of two states, each with its spare area: 'yes if N is equal and
/// every lookup gives the same page, or 'not written' in both'; it 'now also wants
/// the same predicted page and the same count of levels for each logical page', so
/// that every lookup has the same answer. What is not written has no predicted page,
/// but a count of levels. 'It refuses 1, 2, 3 for the first state, then the second,
/// then 7 if any lookup does.'
pub fn agreement(one: (&Lent, &[u32]), other: (&Lent, &[u32])) -> Result<bool, Refusal> {
    let (one, other) = (whole(one)?, whole(other)?);
    let lookups = (one.lookups()?, other.lookups()?);
    Ok(lookups.0 == lookups.1)
}

/// A state and its spare area that passed 1, 2 and 3.
struct Whole<'a> {
    device: Device,
    state: &'a State,
    area: &'a [u32],
}

/// Refuses 1, 2 and 3 for one state with its spare area.
fn whole<'a>((lent, area): (&'a Lent, &'a [u32])) -> Result<Whole<'a>, Refusal> {
    let (device, state) = lent.open()?;
    require(area.len() == device.spare_length(), Refusal::BadLength)?;
    require(state_is_sound(&device, state), Refusal::NotSound)?;
    Ok(Whole {
        device,
        state,
        area,
    })
}

impl Whole<'_> {
    /// What lookup answers for every logical page below N; two such lists are equal
    /// only if N is.
    fn lookups(&self) -> Result<Vec<Lookup>, Refusal> {
        (0..self.device.logical_pages)
            .map(|logical_page| seek(&self.device, self.state, self.area, logical_page))
            .collect()
    }
}
