//! Agreement.

use hedjosur_model::ops::Refusal;

use super::lookup::predict;
use super::spare;
use super::state::{is_sound, open_with, regions, Regions};
use crate::blocks::require;
use crate::group::{self, Lines, Predictions};
use crate::numbers::Numbers;

/// Whether two states, each with its spare area, agree: every logical page has the same
/// page, predicted page and count of levels in both.
pub fn agree(one: (&[u8], &[u32]), other: (&[u8], &[u32])) -> Result<bool, Refusal> {
    let one = Side::open(one)?;
    let other = Side::open(other)?;
    let mut agreed = one.device.logical_pages == other.device.logical_pages;
    let (mut of_one, mut of_other) = (Predictions::none(), Predictions::none());
    let mut lines = Lines::none();
    for number in 0..one.device.groups().max(other.device.groups()) {
        // Without records no level is looked at, whether pages are discarded or not.
        if !one.is_written(number) && !other.is_written(number) {
            continue;
        }
        one.predict(number, &mut lines, &mut of_one);
        other.predict(number, &mut lines, &mut of_other);
        let offsets = one.device.offsets(number);
        agreed = agreed && of_one.same(&of_other, offsets);
        if agreed {
            agreed = agree_on([&one, &other], number, &of_one)?;
        } else {
            one.check(number, &of_one)?;
            other.check(number, &of_other)?;
        }
    }
    Ok(agreed)
}

/// Whether two states that predict the same for a group give the same pages.
fn agree_on(sides: [&Side; 2], number: usize, predictions: &Predictions) -> Result<bool, Refusal> {
    let mut agreed = true;
    for &offset in strayed(sides, number, predictions, &mut [0; 256])? {
        let [one, other] = sides.map(|side| side.page(number, predictions, offset));
        agreed &= one? == other?;
    }
    Ok(agreed)
}

/// Lists the offsets that a middle entry of their predicted page doesn't name, on either
/// side. There is no branch for each: the next entries are fetched before the last ones
/// are known.
#[inline(never)]
fn strayed<'a, const SIDES: usize>(
    sides: [&Side; SIDES],
    number: usize,
    predictions: &Predictions,
    list: &'a mut [u8; 256],
) -> Result<&'a [u8], Refusal> {
    let areas = sides.map(|Side { device, area, .. }| {
        // From the first page's middle entry on.
        (&area[device.bound as usize..], device.width())
    });
    let mut count = 0;
    for offset in predictions.written().iter() {
        let predicted = predictions.page(offset) as usize;
        let logical_page = logical_page(number, offset);
        let mut named = true;
        for (entries, width) in areas {
            // A page that doesn't exist has no entry.
            let middle = entries.get(predicted * width);
            named &= *middle.ok_or(Refusal::NotNamed)? == logical_page;
        }
        list[count % 256] = offset;
        count += usize::from(!named);
    }
    Ok(&list[..count])
}

/// The logical page of an offset of a group.
#[inline(always)]
fn logical_page(number: usize, offset: u8) -> u32 {
    256 * number as u32 + u32::from(offset)
}

/// A state and its spare area.
struct Side<'a> {
    device: Numbers,
    regions: Regions<'a>,
    area: &'a [u32],
}

impl<'a> Side<'a> {
    /// Refuses 1, 2 and 3.
    fn open((state, area): (&'a [u8], &'a [u32])) -> Result<Side<'a>, Refusal> {
        let device = open_with(state, area)?;
        require(is_sound(&device, state), Refusal::NotSound)?;
        Ok(Side {
            device,
            regions: regions(&device, state),
            area,
        })
    }

    /// Whether a group has records.
    fn is_written(&self, number: usize) -> bool {
        let part = self.regions.groups.get(number);
        part.is_some_and(|part| group::records(part) > 0)
    }

    /// Fills in what is predicted for a group, or nothing where there is no such group.
    fn predict(&self, number: usize, lines: &mut Lines, predictions: &mut Predictions) {
        match number < self.device.groups() {
            true => predict(&self.regions, number, lines, predictions),
            false => *predictions = Predictions::none(),
        }
    }

    /// Refuses where a lookup in a group does.
    fn check(&self, number: usize, predictions: &Predictions) -> Result<(), Refusal> {
        for &offset in strayed([self], number, predictions, &mut [0; 256])? {
            self.page(number, predictions, offset)?;
        }
        Ok(())
    }

    /// The page of an offset of a group, of which an existing one is predicted.
    fn page(&self, number: usize, predictions: &Predictions, offset: u8) -> Result<u32, Refusal> {
        let (predicted, logical_page) = (predictions.page(offset), logical_page(number, offset));
        let page = spare::resolve(&self.device, self.area, predicted, logical_page);
        page.ok_or(Refusal::NotNamed)
    }
}
