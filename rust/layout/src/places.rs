//! Lengths and places.

use hedjosur_model::device::Device;
use hedjosur_model::levels::GROUP_RECORDS;

/// M, B, N and g.
pub const HEAD_BYTES: usize = 16;
/// A block's count.
pub const COUNT_BYTES: usize = 2;
/// A record: start, span, word and intercept.
pub const RECORD_BYTES: usize = 8;
/// Where a record's word is; its start is at 0, its span at 1.
pub const WORD_AT: usize = 2;
/// Where a slot's level is, behind its record.
pub const LEVEL_AT: usize = RECORD_BYTES;
/// A slot: a record and its level.
pub const SLOT_BYTES: usize = LEVEL_AT + 2;
/// An owner: 0, or its record's start plus 1.
pub const OWNER_BYTES: usize = 2;
/// Where a group's number of used slots is.
pub const USED_AT: usize = 0;
/// Where a group's word 'owned' is.
pub const OWNED_AT: usize = 2;
/// Where a group's slots begin.
pub const SLOTS_AT: usize = 4;
/// Where a group's owners begin.
pub const OWNERS_AT: usize = SLOTS_AT + GROUP_RECORDS * SLOT_BYTES;
/// A group.
pub const GROUP_BYTES: usize = OWNERS_AT + 256 * OWNER_BYTES;

/// A group's bytes.
pub type Part = [u8; GROUP_BYTES];

/// The length of a device's state.
#[inline]
pub fn state_bytes(device: &Device) -> usize {
    groups_at(device) + GROUP_BYTES * device.groups()
}

/// Where a device's discard marks begin, behind its counts.
#[inline]
pub fn marks_at(device: &Device) -> usize {
    HEAD_BYTES + COUNT_BYTES * device.blocks as usize
}

/// Where a device's groups begin, behind its discard marks.
#[inline]
pub fn groups_at(device: &Device) -> usize {
    marks_at(device) + device.mark_bits() / 8
}

/// Where the owner of an offset is in its group.
#[inline]
pub fn owner_at(offset: u8) -> usize {
    OWNERS_AT + OWNER_BYTES * usize::from(offset)
}

/// The number of two bytes.
pub fn u16_at(bytes: &[u8], at: usize) -> u16 {
    u16::from_le_bytes([bytes[at], bytes[at + 1]])
}

/// Writes a number of two bytes.
pub fn put_u16(bytes: &mut [u8], at: usize, number: u16) {
    bytes[at..at + 2].copy_from_slice(&number.to_le_bytes());
}

#[cfg(test)]
mod tests {
    use hedjosur_model::testing::full_device;

    use super::*;

    /// The lengths that docs/LAYOUT.md gives as examples.
    #[test]
    fn states_have_the_lengths_of_the_page() {
        let script = Device::new([9, 64, 256, 1]).expect("the script's device");
        assert_eq!(GROUP_BYTES, 5636);
        assert_eq!(state_bytes(&script), 5702);
        assert_eq!(state_bytes(&full_device(3, 4, 0)), 5659);
        assert_eq!(state_bytes(&full_device(4096, 256, 0)), 11_616_256);
    }

    /// (N + 7) / 8 bytes of marks, between the counts and the groups.
    #[test]
    fn marks_have_whole_bytes() {
        for (logical_pages, bytes) in [(1, 1), (7, 1), (8, 1), (9, 2), (16, 2), (17, 3), (256, 32)]
        {
            let device = Device::new([9, 64, logical_pages, 1]).expect("a device");
            assert_eq!(marks_at(&device), 34);
            assert_eq!(groups_at(&device), 34 + bytes, "N {logical_pages}");
        }
    }

    /// What one has more of counts the other has more of marks, and their spare
    /// areas are of one length too.
    #[test]
    fn two_devices_may_have_one_length() {
        let fewer = full_device(4, 20, 0);
        let more = Device::new([5, 16, 16, 0]).expect("a device");
        assert_eq!(state_bytes(&fewer), state_bytes(&more));
        assert_eq!(fewer.spare_length(), more.spare_length());
    }
}
