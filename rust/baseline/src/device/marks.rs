//! The discard marks, a bit for each logical page: those of a group's 256 are looked
//! at together.

use crate::offsets::Offsets;

/// The bytes of a group's marks; those of the last group may be fewer.
const GROUP_MARKS: usize = 32;

/// Whether a logical page is discarded.
#[inline]
pub(super) fn is_discarded(marks: &[u8], logical_page: u32) -> bool {
    marks[logical_page as usize / 8] >> (logical_page % 8) & 1 == 1
}

/// Marks a logical page discarded.
#[inline]
pub(super) fn mark(marks: &mut [u8], logical_page: u32) {
    marks[logical_page as usize / 8] |= 1 << (logical_page % 8);
}

/// The discarded offsets of a group; bits behind the last mark are among them.
#[inline]
pub(super) fn discarded(marks: &[u8], group: usize) -> Offsets {
    let marks = &marks[GROUP_MARKS * group..];
    let whole = marks.first_chunk().copied();
    Offsets::from_bytes(whole.unwrap_or_else(|| {
        let mut bytes = [0; GROUP_MARKS];
        bytes[..marks.len()].copy_from_slice(marks);
        bytes
    }))
}

/// Clears the marks of offsets of a group.
#[inline]
pub(super) fn clear(marks: &mut [u8], group: usize, offsets: Offsets) {
    let kept = discarded(marks, group).without(offsets).to_bytes();
    let marks = marks[GROUP_MARKS * group..].iter_mut();
    marks.zip(kept).for_each(|(byte, kept)| *byte = kept);
}
