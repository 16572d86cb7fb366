//! When a group is sound, clause by clause, and a state.
//!
//! 'A group is sound if: at most 512 records, no empty level, S + L at most 255
//! and inside N, words as tabled, L a multiple of d, levels ordered as above,
//! and the ownership rules met.'

use std::collections::BTreeSet;

use crate::device::{Device, GROUP_PAGES};
use crate::levels::{Group, GROUP_RECORDS};
use crate::record::{Kind, Record};
use crate::state::State;

/// 'A state is sound if all groups are and no block's count exceeds B.' Every
/// pattern of marks is sound.
pub fn state_is_sound(device: &Device, state: &State) -> bool {
    let mut groups = state.groups.iter().enumerate();
    groups.all(|(number, group)| group_is_sound(device, number, group))
        && counts_fit(device, &state.counts)
}

/// Whether group `number` of a device is sound.
pub fn group_is_sound(device: &Device, number: usize, group: &Group) -> bool {
    records_fit(group)
        && no_level_is_empty(group)
        && group.records().all(|record| {
            lies_inside(device, number, record) && word_is_tabled(record) && span_fits_kind(record)
        })
        && levels_are_ordered(group)
        && owners_are_right(group)
}

/// 'No block's count exceeds B.'
pub fn counts_fit(device: &Device, counts: &[u32]) -> bool {
    counts.iter().all(|&count| count <= device.block_pages)
}

/// 'At most 512 records.'
pub fn records_fit(group: &Group) -> bool {
    group.size() <= GROUP_RECORDS
}

/// 'No empty level.'
pub fn no_level_is_empty(group: &Group) -> bool {
    group.levels.iter().all(|level| !level.is_empty())
}

/// 'S + L at most 255 and inside N': the last offset names a logical page.
pub fn lies_inside(device: &Device, number: usize, record: &Record) -> bool {
    let first_of_group = number as u64 * u64::from(GROUP_PAGES);
    record.last() <= 255
        && first_of_group + u64::from(record.last()) < u64::from(device.logical_pages)
}

/// 'Words as tabled.'
pub fn word_is_tabled(record: &Record) -> bool {
    record.kind().is_some()
}

/// 'Single, L = 0' and 'L a multiple of d'.
pub fn span_fits_kind(record: &Record) -> bool {
    match record.kind() {
        Some(Kind::Single) => record.span == 0,
        Some(Kind::Accurate { stride }) => record.span.is_multiple_of(stride),
        Some(Kind::Approximate { .. }) | None => true,
    }
}

/// 'In one level records ascend and their ranges don't meet.'
pub fn levels_are_ordered(group: &Group) -> bool {
    group.levels.iter().all(|level| {
        level
            .windows(2)
            .all(|pair| pair[0].last() < u32::from(pair[1].start))
    })
}

/// The ownership rules. 'An offset of a group is owned by at most one
/// approximate record', and by nothing else; 'S and S + L are always the first
/// and last members', so that an approximate record owns at least one offset
/// and none outside its range. Two approximate records with one start would
/// both own it.
pub fn owners_are_right(group: &Group) -> bool {
    let mut owned = BTreeSet::new();
    let owned_once = group
        .records()
        .flat_map(|record| &record.owns)
        .all(|offset| owned.insert(offset));
    owned_once && group.strays.is_empty() && group.records().all(owns_what_its_kind_may)
}

/// Whether a record owns its first and last offset and nothing outside, if it
/// is approximate, and nothing if it isn't.
fn owns_what_its_kind_may(record: &Record) -> bool {
    if !record.is_approximate() {
        return record.owns.is_empty();
    }
    record.owns.first() == Some(&record.start)
        && record.owns.last().map(|&last| u32::from(last)) == Some(record.last())
}
