//! Records, sound groups and states, and spare areas of any kind.

use std::collections::BTreeSet;

use super::Random;
use crate::device::{Device, GROUP_PAGES};
use crate::levels::{Group, GROUP_RECORDS};
use crate::plain;
use crate::record::{Kind, Record};
use crate::spare::NOBODY;
use crate::state::State;

/// An intercept that predicts a page of the device, or one near it, or any.
fn any_intercept(random: &mut Random) -> i32 {
    match random.once_in(8) {
        true => random.bits() as i32,
        false => random.below(600) as i32 - 100,
    }
}

/// Any record whose range lies in `start` to `last`; an approximate one owns
/// only offsets out of `unowned`.
pub fn any_record(random: &mut Random, start: u8, last: u8, unowned: &BTreeSet<u8>) -> Record {
    let intercept = any_intercept(random);
    let room = last - start;
    match random.below(3) {
        0 => Record::exact(start, 0, Kind::Single, intercept),
        1 => {
            let stride = match random.once_in(6) {
                true => random.between(1, 255) as u8,
                false => random.between(1, 7) as u8,
            };
            let most = u32::from(room / stride);
            let span = stride * random.between(0, most.min(12)) as u8;
            Record::exact(start, span, Kind::Accurate { stride }, intercept)
        }
        _ => {
            let reach = start.saturating_add(random.below(40) as u8).min(last);
            let owns: BTreeSet<u8> = unowned
                .range(start..=reach)
                .copied()
                .filter(|_| random.once_in(3))
                .collect();
            match owns.is_empty() {
                true => Record::exact(start, 0, Kind::Single, intercept),
                false => Record::approximate(random.below(257) as u16, intercept, owns),
            }
        }
    }
}

/// Any sound group whose offsets go up to `last`.
pub fn sound_group(random: &mut Random, last: u8) -> Group {
    let mut group = Group::default();
    let mut unowned: BTreeSet<u8> = (0..=last).collect();
    let sparse = random.between(1, 60);
    let deepest = random.pick(&[2, 4, 7, 7, 7, 80]);
    for _ in 0..random.below(deepest) {
        let mut level = Vec::new();
        let mut next = random.below(sparse);
        while next <= u32::from(last) && group.size() + level.len() < GROUP_RECORDS {
            let record = any_record(random, next as u8, last, &unowned);
            unowned = &unowned - &record.owns;
            next = record.last() + random.between(1, sparse);
            level.push(record);
        }
        if !level.is_empty() {
            group.levels.push(level);
        }
    }
    group
}

/// The last offset of a group of a device.
pub fn last_offset(device: &Device, group: usize) -> u8 {
    let after = device.logical_pages - group as u32 * GROUP_PAGES;
    (after.min(GROUP_PAGES) - 1) as u8
}

/// A state of a device with arbitrary sound groups, counts and marks.
pub fn sound_state(random: &mut Random, device: &Device) -> State {
    let (used, kept) = (random.between(1, 4), random.between(1, 8));
    State {
        numbers: device.numbers(),
        counts: any_counts(random, device, used),
        marks: (0..device.mark_bits())
            .map(|_| random.once_in(kept))
            .collect(),
        groups: (0..device.groups())
            .map(|number| sound_group(random, last_offset(device, number)))
            .collect(),
    }
}

/// Counts of a device that are at most B, one in `used` of them 0.
fn any_counts(random: &mut Random, device: &Device, used: u32) -> Vec<u32> {
    (0..device.blocks)
        .map(|_| match random.once_in(used) {
            true => 0,
            false => random.between(1, device.block_pages),
        })
        .collect()
}

/// A state of a device for the plain engine, with arbitrary counts and sound entries.
pub fn sound_plain_state(random: &mut Random, device: &Device) -> plain::State {
    let (used, kept) = (random.between(1, 4), random.between(1, 8));
    let counts = any_counts(random, device, used);
    let written = |&page: &u32| {
        let (block, place) = (page / device.block_pages, page % device.block_pages);
        place < counts[block as usize]
    };
    let mut pages: Vec<u32> = (0..device.pages()).filter(written).collect();
    random.shuffle(&mut pages);
    let entries = (0..device.logical_pages).map(|_| match random.once_in(kept) {
        true => plain::NOT_WRITTEN,
        false => pages.pop().unwrap_or(plain::NOT_WRITTEN),
    });
    plain::State {
        numbers: device.numbers(),
        entries: entries.collect(),
        counts,
    }
}

/// A spare area of the right length that names anybody.
pub fn any_area(random: &mut Random, device: &Device) -> Vec<u32> {
    (0..device.spare_length())
        .map(|_| match random.once_in(6) {
            true => random.pick(&[NOBODY, NOBODY - 1, device.logical_pages]),
            false => random.below(device.logical_pages),
        })
        .collect()
}
