//! Lookup.

use hedjosur_model::device::{group_of, offset_of};
use hedjosur_model::ops::{Lookup, Refusal};

use super::state::{open_with, regions, Regions};
use super::{marks, spare};
use crate::blocks::require;
use crate::group::{self, Found, Lines, Predictions};
use crate::numbers::Numbers;

/// Looks a logical page up.
pub fn lookup(state: &[u8], area: &[u32], logical_page: u32) -> Result<Lookup, Refusal> {
    let (device, regions) = open_for(state, area, logical_page)?;
    if marks::is_discarded(regions.marks, logical_page) {
        return Ok(Lookup::NotWritten { levels: 0 });
    }
    let offset = offset_of(logical_page);
    let Found { record, levels } = group::find(&regions.groups[group_of(logical_page)], offset);
    let levels = levels.into();
    let Some(record) = record else {
        return Ok(Lookup::NotWritten { levels });
    };
    let predicted = record.predicted(offset);
    let page = resolve(&device, area, predicted, logical_page).ok_or(Refusal::NotNamed)?;
    Ok(Lookup::Found {
        page,
        predicted,
        levels,
    })
}

/// The numbers and the regions of a state, with its spare area, for a call about one
/// logical page; or refusal 1, 2, 4 or 3.
#[inline(always)]
pub(super) fn open_for<'a>(
    state: &'a [u8],
    area: &[u32],
    logical_page: u32,
) -> Result<(Numbers, Regions<'a>), Refusal> {
    let device = open_with(state, area)?;
    let regions = regions_for(&device, state, logical_page)?;
    Ok((device, regions))
}

/// The regions of a state whose length fits, for a call about one logical page; or
/// refusal 4 or 3.
#[inline(always)]
pub(super) fn regions_for<'a>(
    device: &Numbers,
    state: &'a [u8],
    logical_page: u32,
) -> Result<Regions<'a>, Refusal> {
    require(logical_page < device.logical_pages, Refusal::OutOfRange)?;
    let number = group_of(logical_page);
    let regions = regions(device, state);
    let part = &regions.groups[number];
    let sound = group::sound(part, device.logical_pages, number as u32);
    require(sound, Refusal::NotSound)?;
    Ok(regions)
}

/// Fills in what is predicted for the logical pages of a group; a discarded one is
/// not written.
pub(super) fn predict(
    regions: &Regions,
    number: usize,
    lines: &mut Lines,
    predictions: &mut Predictions,
) {
    predictions.fill(&regions.groups[number], lines);
    predictions.discard(marks::discarded(regions.marks, number));
}

/// The page that holds a logical page, if the predicted one exists and names it.
#[inline]
pub(super) fn resolve(
    device: &Numbers,
    area: &[u32],
    predicted: u32,
    logical_page: u32,
) -> Option<u32> {
    match predicted < device.pages() {
        true => spare::resolve(device, area, predicted, logical_page),
        false => None,
    }
}
