//! Lookup.

use super::{require, Refusal};
use crate::device::{group_of, offset_of, Device};
use crate::levels::Group;
use crate::sound::group_is_sound;
use crate::spare;
use crate::state::{Lent, State};

/// Lookup 'answers the page, the predicted page and how many levels were looked
/// at, or 'not written' with the number of levels'.
#[derive(Clone, Copy, Debug, PartialEq, Eq)]
pub enum Lookup {
    /// The logical page was found.
    Found {
        /// The page.
        page: u32,
        /// The predicted page.
        predicted: u32,
        /// How many levels were looked at.
        levels: usize,
    },
    /// It is discarded, or no record has it.
    NotWritten {
        /// 0 where it is discarded, else the number of levels.
        levels: usize,
    },
}

impl Lookup {
    /// 'Reads are counted from these values: the predicted page, and the
    /// answered one if it is another.'
    pub fn reads(&self) -> u32 {
        match self {
            Lookup::Found {
                page, predicted, ..
            } => 1 + u32::from(page != predicted),
            Lookup::NotWritten { .. } => 0,
        }
    }

    /// The page, or None for 'not written'.
    pub fn page(&self) -> Option<u32> {
        match self {
            Lookup::Found { page, .. } => Some(*page),
            Lookup::NotWritten { .. } => None,
        }
    }
}

/// Lookup of a logical page. 'After 1 and 2: 4; 3, its group not sound; 7, the
/// predicted page doesn't exist or no entry names the logical page.'
pub fn lookup(lent: &Lent, area: &[u32], logical_page: u32) -> Result<Lookup, Refusal> {
    let (device, state) = open_for(lent, area, logical_page)?;
    seek(&device, state, area, logical_page)
}

/// The device and the state, for a call about one logical page that is lent the spare
/// area, or one of the refusals before 7.
pub(super) fn open_for<'a>(
    lent: &'a Lent,
    area: &[u32],
    logical_page: u32,
) -> Result<(Device, &'a State), Refusal> {
    let (device, state) = lent.open()?;
    require(area.len() == device.spare_length(), Refusal::BadLength)?;
    group_for(&device, state, logical_page)?;
    Ok((device, state))
}

/// The group of a logical page, or what is refused after 1 and 2: '4; 3, its group not
/// sound'.
pub(super) fn group_for<'a>(
    device: &Device,
    state: &'a State,
    logical_page: u32,
) -> Result<&'a Group, Refusal> {
    require(logical_page < device.logical_pages, Refusal::OutOfRange)?;
    let number = group_of(logical_page);
    let group = &state.groups[number];
    require(group_is_sound(device, number, group), Refusal::NotSound)?;
    Ok(group)
}

/// Lookup in a group already known to be sound. Of a discarded page it 'says 'not
/// written' with 0 levels looked at'; else it 'goes down the levels to the first
/// record having the offset as a member'.
pub(super) fn seek(
    device: &Device,
    state: &State,
    area: &[u32],
    logical_page: u32,
) -> Result<Lookup, Refusal> {
    if state.marks[logical_page as usize] {
        return Ok(Lookup::NotWritten { levels: 0 });
    }
    let group = &state.groups[group_of(logical_page)];
    let offset = offset_of(logical_page);
    let Some((level, record)) = group.first_with(offset) else {
        let levels = group.levels.len();
        return Ok(Lookup::NotWritten { levels });
    };
    let predicted = record
        .predicted(offset)
        .and_then(|page| spare::existing(device, page))
        .ok_or(Refusal::NotNamed)?;
    let page = spare::find(device, area, predicted, logical_page).ok_or(Refusal::NotNamed)?;
    Ok(Lookup::Found {
        page,
        predicted,
        levels: level + 1,
    })
}
