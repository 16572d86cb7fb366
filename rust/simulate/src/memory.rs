//! What the table takes of the bytes it is lent, read as docs/LAYOUT.md fixes
//! them.

use hedjosur::Numbers;
use hedjosur_layout::{
    groups_at, owner_at, u16_at, GROUP_BYTES, OWNED_AT, OWNERS_AT, SLOTS_AT, SLOT_BYTES, USED_AT,
    WORD_AT,
};
use hedjosur_model::device::Device;

/// The groups of a state, added up.
#[derive(Clone, Copy, Debug, Default, PartialEq, Eq)]
pub struct Usage {
    /// Groups.
    pub groups: u64,
    /// Records.
    pub records: u64,
    /// Records of the group that has most.
    pub fullest: u64,
    /// Groups whose owners are in use.
    pub owned_groups: u64,
}

impl Usage {
    /// What a state's groups have in use, from the first four bytes of each.
    pub fn of(numbers: Numbers, state: &[u8]) -> Usage {
        let mut usage = Usage::default();
        for group in groups(numbers, state) {
            let records = u64::from(u16_at(group, USED_AT));
            usage.groups += 1;
            usage.records += records;
            usage.fullest = usage.fullest.max(records);
            usage.owned_groups += u64::from(u16_at(group, OWNED_AT) != 0);
        }
        usage
    }

    /// Bytes in use: each group's first four, its used slots, and its owners where
    /// they are read.
    pub fn bytes(&self) -> u64 {
        let owners = (GROUP_BYTES - OWNERS_AT) as u64;
        SLOTS_AT as u64 * self.groups
            + SLOT_BYTES as u64 * self.records
            + owners * self.owned_groups
    }
}

/// The approximate records of a state, added up.
#[derive(Clone, Copy, Debug, Default, PartialEq, Eq)]
pub struct Approximate {
    /// Approximate records.
    pub records: u64,
    /// Offsets that they own.
    pub offsets: u64,
}

impl Approximate {
    /// The approximate records of a state's groups.
    pub fn of(numbers: Numbers, state: &[u8]) -> Approximate {
        let mut approximate = Approximate::default();
        for group in groups(numbers, state) {
            let used = usize::from(u16_at(group, USED_AT));
            let words = (0..used).map(|slot| u16_at(group, SLOTS_AT + SLOT_BYTES * slot + WORD_AT));
            approximate.records += words.filter(|word| word % 2 == 1).count() as u64;
            if u16_at(group, OWNED_AT) != 0 {
                let owners = (0..=255).map(|offset| u16_at(group, owner_at(offset)));
                approximate.offsets += owners.filter(|owner| *owner != 0).count() as u64;
            }
        }
        approximate
    }
}

/// The bytes that the LeaFTL paper would count for the same records: eight for
/// each, one for each offset that an approximate record owns and one behind each
/// such list.
pub fn paper_bytes(usage: Usage, approximate: Approximate) -> u64 {
    8 * usage.records + approximate.offsets + approximate.records
}

/// The parts of a state that are groups.
fn groups(numbers: Numbers, state: &[u8]) -> impl Iterator<Item = &[u8]> {
    let Numbers {
        blocks,
        block_pages,
        logical_pages,
        error_bound,
    } = numbers;
    let device = Device::new([blocks, block_pages, logical_pages, error_bound]);
    let device = device.expect("numbers that a format accepted");
    state[groups_at(&device)..].chunks_exact(GROUP_BYTES)
}

#[cfg(test)]
mod tests {
    use hedjosur::Device;

    use super::*;

    /// Two groups, one of them with an approximate record of four offsets.
    #[test]
    fn records_and_owners_are_read_from_the_state() {
        let numbers = Numbers {
            blocks: 9,
            block_pages: 128,
            logical_pages: 512,
            error_bound: 1,
        };
        let mut device = Device {
            state: vec![0xA5; numbers.state_len().expect("a device")],
            spare: vec![0; numbers.spare_len().expect("a device")],
        };
        device.format(numbers).expect("accepted");
        let empty = Usage {
            groups: 2,
            ..Usage::default()
        };
        assert_eq!(Usage::of(numbers, &device.state), empty);
        assert_eq!(empty.bytes(), 8);
        for batch in [&[0, 1, 4, 5][..], &[256], &[300, 302, 304]] {
            device.flush(batch, &mut [0; 128]).expect("accepted");
        }
        let usage = Usage::of(numbers, &device.state);
        assert_eq!(
            usage,
            Usage {
                groups: 2,
                records: 3,
                fullest: 2,
                owned_groups: 1
            }
        );
        assert_eq!(usage.bytes(), 8 + 30 + 512);
        let approximate = Approximate::of(numbers, &device.state);
        assert_eq!(
            approximate,
            Approximate {
                records: 1,
                offsets: 4
            }
        );
        assert_eq!(paper_bytes(usage, approximate), 24 + 4 + 1);
        let mut buffer = [0; hedjosur::LISTING_LEN];
        let listed = [0, 1].map(|group| device.list(group, &mut buffer).expect("listed").len());
        assert_eq!(listed, [1, 2]);
    }
}
