//! A group.

use std::collections::{BTreeMap, BTreeSet};

use hedjosur_model::levels::{Group, GROUP_RECORDS};
use hedjosur_model::record::Record;

use crate::places::{
    owner_at, put_u16, u16_at, GROUP_BYTES, LEVEL_AT, OWNED_AT, OWNERS_AT, RECORD_BYTES, SLOTS_AT,
    SLOT_BYTES, USED_AT,
};
use crate::record::decode_record;

/// Writes a group over [`GROUP_BYTES`] bytes; those that no reading looks at
/// stay. False, and nothing is written, where no bytes encode the group: it has
/// too many records, an empty level, strays, an exact record that owns, or two
/// records that own one offset or that have one start.
pub fn encode_group(group: &Group, bytes: &mut [u8]) -> bool {
    let mut encoded = bytes.to_vec();
    let levels = group.levels.iter().zip(0u16..);
    let placed = levels.flat_map(|(records, level)| records.iter().map(move |r| (r, level)));
    let mut used = 0u16;
    for (record, level) in placed.take(GROUP_RECORDS) {
        let slot = &mut encoded[SLOTS_AT + SLOT_BYTES * usize::from(used)..][..SLOT_BYTES];
        slot[..RECORD_BYTES].copy_from_slice(&record.bytes());
        put_u16(slot, LEVEL_AT, level);
        used += 1;
    }
    put_u16(&mut encoded, USED_AT, used);
    let owned = group.records().any(|record| !record.owns.is_empty());
    put_u16(&mut encoded, OWNED_AT, owned.into());
    if owned {
        encoded[OWNERS_AT..GROUP_BYTES].fill(0);
        for record in group.records() {
            for &offset in &record.owns {
                put_u16(&mut encoded, owner_at(offset), owner(record));
            }
        }
    }
    let encodes = decode_group(&encoded).as_ref() == Some(group);
    if encodes {
        bytes.copy_from_slice(&encoded);
    }
    encodes
}

/// The group that [`GROUP_BYTES`] bytes encode, or None where these bytes encode
/// no group.
pub fn decode_group(bytes: &[u8]) -> Option<Group> {
    let used = usize::from(u16_at(bytes, USED_AT));
    if used > GROUP_RECORDS {
        return None;
    }
    let mut owned: BTreeMap<u16, BTreeSet<u8>> = BTreeMap::new();
    if u16_at(bytes, OWNED_AT) != 0 {
        for offset in 0..=255 {
            let owner = u16_at(bytes, owner_at(offset));
            owned.entry(owner).or_default().insert(offset);
        }
    }
    let mut group = Group::default();
    let mut known = BTreeSet::from([0]);
    let (slots, _) = bytes[SLOTS_AT..OWNERS_AT].as_chunks::<SLOT_BYTES>();
    for slot in &slots[..used] {
        let mut record = decode_record(*slot.first_chunk().expect("a slot begins with a record"));
        if record.is_approximate() {
            let owner = owner(&record);
            known.insert(owner);
            record.owns = owned.get(&owner).cloned().unwrap_or_default();
        }
        let level = usize::from(u16_at(slot, LEVEL_AT));
        let levels = group.levels.len();
        if level == levels {
            group.levels.push(vec![record]);
        } else if level + 1 == levels {
            group.levels[level].push(record);
        } else {
            return None;
        }
    }
    let all_known = owned.keys().all(|owner| known.contains(owner));
    all_known.then_some(group)
}

/// What any bytes of a group are read as: 'bytes that encode no group are read
/// as a group with one empty level, which is not sound'.
pub fn read_group(bytes: &[u8]) -> Group {
    decode_group(bytes).unwrap_or_else(|| Group {
        levels: vec![Vec::new()],
        ..Group::default()
    })
}

/// What is stored for an offset that an approximate record owns.
fn owner(record: &Record) -> u16 {
    u16::from(record.start) + 1
}

#[cfg(test)]
mod tests {
    use hedjosur_model::record::Kind;

    use super::*;
    use crate::Part;

    /// A group of an accurate record over an approximate one.
    fn two_levels() -> Group {
        let accurate = Record::exact(100, 6, Kind::Accurate { stride: 2 }, -50);
        let approximate = Record::approximate(1, 65, BTreeSet::from([0, 1, 104]));
        Group {
            levels: vec![vec![accurate], vec![approximate]],
            ..Group::default()
        }
    }

    fn encoded(group: &Group) -> Part {
        let mut bytes = [0xA5; GROUP_BYTES];
        assert!(encode_group(group, &mut bytes));
        bytes
    }

    #[test]
    fn a_group_has_the_bytes_of_the_page() {
        let bytes = encoded(&two_levels());
        assert_eq!(bytes[..4], [2, 0, 1, 0]);
        assert_eq!(bytes[4..14], [100, 6, 4, 0, 0xCE, 0xFF, 0xFF, 0xFF, 0, 0]);
        assert_eq!(bytes[14..24], [0, 104, 3, 0, 65, 0, 0, 0, 1, 0]);
        assert_eq!(bytes[24..5124], [0xA5; 5100]);
        assert_eq!(bytes[5124..5130], [1, 0, 1, 0, 0, 0]);
        assert_eq!(bytes[5332..5334], [1, 0]);
        assert_eq!(decode_group(&bytes), Some(two_levels()));
        // While nothing is owned the owners' bytes stay.
        let empty = encoded(&Group::default());
        assert_eq!(empty[..4], [0; 4]);
        assert_eq!(empty[4..], [0xA5; 5632]);
        assert_eq!(decode_group(&empty), Some(Group::default()));
    }

    #[test]
    fn some_bytes_encode_no_group() {
        let good = encoded(&two_levels());
        // 513 slots; a level too high, at first or later; an owner that is no
        // start; one that is an accurate record's.
        for (at, number) in [(0, 513), (12, 1), (22, 2), (5128, 2), (5128, 101)] {
            let mut bytes = good;
            put_u16(&mut bytes, at, number);
            assert_eq!(decode_group(&bytes), None, "{number} at {at}");
            assert_eq!(read_group(&bytes).levels, [vec![]]);
        }
        let mut unowned = good;
        put_u16(&mut unowned, 5128, 101);
        put_u16(&mut unowned, OWNED_AT, 0);
        let group = decode_group(&unowned).expect("a group");
        assert!(group.records().all(|record| record.owns.is_empty()));
    }

    #[test]
    fn some_groups_have_no_bytes() {
        let mut stray = two_levels();
        stray.strays.insert(7);
        let mut empty_level = two_levels();
        empty_level.levels.push(Vec::new());
        let mut exact_owner = two_levels();
        exact_owner.levels[0][0].owns.insert(9);
        let mut owned_twice = two_levels();
        owned_twice
            .levels
            .push(vec![Record::approximate(1, 0, BTreeSet::from([1]))]);
        let full = vec![vec![Record::exact(0, 0, Kind::Single, 0)]; GROUP_RECORDS + 1];
        let too_many = Group {
            levels: full,
            ..Group::default()
        };
        for group in [stray, empty_level, exact_owner, owned_twice, too_many] {
            let mut bytes = [0xA5; GROUP_BYTES];
            assert!(!encode_group(&group, &mut bytes));
            assert_eq!(bytes, [0xA5; GROUP_BYTES]);
        }
    }
}
