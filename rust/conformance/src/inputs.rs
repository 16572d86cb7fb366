//! Inputs of the checks: batches in patterns, groups in bytes, damaged bytes.

use std::collections::BTreeSet;

use hedjosur_layout::{
    decode_group, encode_group, owner_at, put_u16, u16_at, Part, GROUP_BYTES, LEVEL_AT, OWNED_AT,
    SLOTS_AT, SLOT_BYTES, USED_AT, WORD_AT,
};
use hedjosur_model::device::Device;
use hedjosur_model::levels::Group;
use hedjosur_model::record::Record;
use hedjosur_model::testing::{batch, full_device, last_offset, sound_group, Random, SPOILERS};

/// A device with large blocks and more than one group, so that batches are long
/// and groups' edges lie inside them.
pub fn large_device(random: &mut Random) -> Device {
    let bound = random.below(16);
    match random.below(3) {
        0 => full_device(5, 256, bound),
        1 => full_device(11, 256, bound),
        _ => full_device(4096, 256, bound),
    }
}

/// A batch in one of the model's patterns, or one that goes on loosely or in
/// clusters, over some groups.
pub fn any_batch(random: &mut Random, device: &Device) -> Vec<u32> {
    let logical_pages = device.logical_pages;
    match random.below(4) {
        0 | 1 => batch(random, device),
        pattern => {
            let start = random.below(logical_pages);
            let farthest = random.between(1, 12);
            let mut next = start;
            let mut pages: Vec<u32> = (0..random.between(1, 256))
                .map(|_| {
                    next += match pattern {
                        2 => random.between(1, farthest),
                        _ if random.once_in(farthest) => random.between(1, 60),
                        _ => 1,
                    };
                    next % logical_pages
                })
                .collect();
            pages.truncate(device.block_pages as usize);
            pages
        }
    }
}

/// Random bytes.
pub fn junk(random: &mut Random) -> Part {
    let mut bytes = [0; GROUP_BYTES];
    for part in bytes.chunks_mut(8) {
        part.copy_from_slice(&random.bits().to_le_bytes()[..part.len()]);
    }
    bytes
}

/// A group in bytes, over junk where nothing is read.
pub fn encoded(random: &mut Random, group: &Group) -> Part {
    let mut bytes = junk(random);
    assert!(encode_group(group, &mut bytes), "a group that has bytes");
    assert_eq!(decode_group(&bytes).as_ref(), Some(group));
    bytes
}

/// A device, the number of one of its groups, and that group, sound, in bytes.
pub fn any_group(random: &mut Random) -> (Device, u32, Part) {
    let device = full_device(random.pick(&[3, 5, 12, 100]), 256, 0);
    let logical_pages = random.between(1, device.logical_pages);
    let device = Device {
        logical_pages,
        ..device
    };
    let number = random.below(device.groups() as u32);
    let group = sound_group(random, last_offset(&device, number as usize));
    let bytes = encoded(random, &group);
    (device, number, bytes)
}

/// A sound group of 256 offsets and its bytes.
pub fn whole_group(random: &mut Random) -> (Group, Part) {
    let group = sound_group(random, 255);
    let bytes = encoded(random, &group);
    (group, bytes)
}

/// A record's members, as the static library takes them.
pub fn mask_of(record: &Record) -> [u8; 256] {
    std::array::from_fn(|offset| record.has(offset as u8).into())
}

/// Damages a few places of a group's bytes, chosen so that each clause of
/// soundness breaks now and then, and now and then none.
pub fn damage(random: &mut Random, bytes: &mut Part) {
    let used = u32::from(u16_at(bytes, USED_AT));
    for _ in 0..random.between(1, 2) {
        let slot = SLOTS_AT + SLOT_BYTES * random.below(used.clamp(1, 512)) as usize;
        let number = match random.below(4) {
            0 => random.below(4),
            1 => random.between(509, 516),
            2 => random.below(1024),
            _ => random.below(65_536),
        };
        let number = number as u16;
        match random.below(9) {
            0 => put_u16(bytes, USED_AT, number),
            1 => put_u16(bytes, OWNED_AT, number),
            2 => bytes[slot] = random.bits() as u8,
            3 => bytes[slot + 1] = random.bits() as u8,
            4 => put_u16(bytes, slot + WORD_AT, number),
            5 => {
                let level = u16_at(bytes, slot + LEVEL_AT);
                let level = level.wrapping_add(random.pick(&[1, u16::MAX]));
                put_u16(bytes, slot + LEVEL_AT, level);
            }
            6 => put_u16(bytes, slot + LEVEL_AT, number),
            7 => put_u16(bytes, owner_at(random.bits() as u8), number),
            _ => {
                // The owner of one offset is made that of another.
                let from = owner_at(random.bits() as u8);
                let to = owner_at(random.bits() as u8);
                let owner = u16_at(bytes, from);
                put_u16(bytes, to, owner);
            }
        }
    }
}

/// A group that breaks one clause of soundness, in bytes, if any bytes encode
/// it; the clause is told.
pub fn spoiled(random: &mut Random) -> Option<(&'static str, Part)> {
    let spoiler = random.pick(SPOILERS);
    let mut group = sound_group(random, 255);
    (spoiler.spoil)(&mut group, 255);
    let mut bytes = junk(random);
    encode_group(&group, &mut bytes).then_some((spoiler.clause, bytes))
}

/// All offsets, none of them owned yet.
pub fn all_offsets() -> BTreeSet<u8> {
    (0..=255).collect()
}
