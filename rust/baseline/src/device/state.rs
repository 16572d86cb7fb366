//! The regions of a state.

use hedjosur_layout::{Part, GROUP_BYTES, HEAD_BYTES};
use hedjosur_model::ops::Refusal;

use crate::blocks::{counts_fit, require, Count};
use crate::group;
use crate::numbers::Numbers;

/// The numbers of a state, or refusal 1 or 2.
#[inline]
pub(super) fn open(state: &[u8]) -> Result<Numbers, Refusal> {
    let device = Numbers::of_state(state)?;
    require(state.len() == device.state_bytes(), Refusal::BadLength)?;
    Ok(device)
}

/// As [`open`], with its spare area.
#[inline]
pub(super) fn open_with(state: &[u8], area: &[u32]) -> Result<Numbers, Refusal> {
    let device = open(state)?;
    require(area.len() == device.spare_entries(), Refusal::BadLength)?;
    Ok(device)
}

/// What a state holds behind its numbers.
#[derive(Clone, Copy)]
pub(super) struct Regions<'a> {
    pub counts: &'a [Count],
    /// The discard marks.
    pub marks: &'a [u8],
    pub groups: &'a [Part],
}

/// As [`Regions`], for writing.
pub(super) struct RegionsMut<'a> {
    pub counts: &'a mut [Count],
    pub marks: &'a mut [u8],
    pub groups: &'a mut [Part],
}

/// The regions of a state whose length fits.
#[inline]
pub(super) fn regions<'a>(device: &Numbers, state: &'a [u8]) -> Regions<'a> {
    let (before, groups) = state.split_at(device.groups_at());
    let (before, marks) = before.split_at(device.counts_end());
    Regions {
        counts: before[HEAD_BYTES..].as_chunks().0,
        marks,
        groups: groups.as_chunks::<GROUP_BYTES>().0,
    }
}

/// As [`regions`], for writing.
#[inline]
pub(super) fn regions_mut<'a>(device: &Numbers, state: &'a mut [u8]) -> RegionsMut<'a> {
    let (before, groups) = state.split_at_mut(device.groups_at());
    let (before, marks) = before.split_at_mut(device.counts_end());
    RegionsMut {
        counts: before[HEAD_BYTES..].as_chunks_mut().0,
        marks,
        groups: groups.as_chunks_mut::<GROUP_BYTES>().0,
    }
}

/// Whether all groups are sound and no count exceeds B.
pub(super) fn is_sound(device: &Numbers, state: &[u8]) -> bool {
    let Regions { counts, groups, .. } = regions(device, state);
    let mut numbered = groups.iter().zip(0..);
    counts_fit(device, counts)
        && numbered.all(|(part, number)| group::sound(part, device.logical_pages, number))
}
