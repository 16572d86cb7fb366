//! The declarations and the wrappers: the only `unsafe` code.
//!
//! Each call is safe for one reason: pointer and length are those of a slice that
//! is borrowed for the time of the call, `&mut` where the function writes. What
//! else a function asks of its arguments, it checks itself.

use crate::{Found, GROUP_BYTES, OUTSIDE};

extern "C" {
    fn probe_sort(
        batch: *const u32,
        batch_length: usize,
        pages: *mut u32,
        pages_length: usize,
        sources: *mut u32,
        sources_length: usize,
    ) -> u64;

    fn probe_learn(
        written: *const u32,
        written_length: usize,
        first: u32,
        g: u32,
        out: *mut u8,
        out_length: usize,
        taken: *mut u32,
        taken_length: usize,
    ) -> u64;

    fn probe_program(
        m: u32,
        b: u32,
        n: u32,
        g: u32,
        spare: *mut u32,
        spare_length: usize,
        written: *const u32,
        written_length: usize,
        block: u32,
        stop: u32,
    ) -> u64;

    fn probe_group_sound(part: *const u8, part_length: usize, n: u32, k: u32) -> u64;

    fn probe_group_find(part: *const u8, part_length: usize, o: u32) -> u64;

    fn probe_group_insert(
        part: *mut u8,
        part_length: usize,
        record: *const u8,
        record_length: usize,
        mask: *const u8,
        mask_length: usize,
    ) -> u64;

    fn probe_group_compact(part: *mut u8, part_length: usize) -> u64;
}

/// Sorts a batch; see `probe_sort`.
pub fn sort(batch: &[u32], pages: &mut [u32], sources: &mut [u32]) -> usize {
    // SAFETY: three borrowed slices, the last two for writing.
    let answer = unsafe {
        probe_sort(
            batch.as_ptr(),
            batch.len(),
            pages.as_mut_ptr(),
            pages.len(),
            sources.as_mut_ptr(),
            sources.len(),
        )
    };
    accepted(answer) as usize
}

/// Learns a sorted batch; see `probe_learn`.
pub fn learn(written: &[u32], first: u32, g: u32, out: &mut [u8]) -> usize {
    let mut taken = [0; 256];
    // SAFETY: three borrowed slices, the last two for writing.
    let answer = unsafe {
        probe_learn(
            written.as_ptr(),
            written.len(),
            first,
            g,
            out.as_mut_ptr(),
            out.len(),
            taken.as_mut_ptr(),
            taken.len(),
        )
    };
    accepted(answer) as usize
}

/// Writes a block's spare entries; see `probe_program`.
pub fn program(numbers: [u32; 4], spare: &mut [u32], written: &[u32], block: u32, stop: u32) {
    let answer = answer_to_program(numbers, spare, written, block, stop);
    assert_eq!(accepted(answer), 0);
}

/// The same, but it answers what `probe_program` does, [`OUTSIDE`] too.
pub fn answer_to_program(
    [m, b, n, g]: [u32; 4],
    spare: &mut [u32],
    written: &[u32],
    block: u32,
    stop: u32,
) -> u64 {
    // SAFETY: two borrowed slices, the first for writing.
    unsafe {
        probe_program(
            m,
            b,
            n,
            g,
            spare.as_mut_ptr(),
            spare.len(),
            written.as_ptr(),
            written.len(),
            block,
            stop,
        )
    }
}

/// Whether a group's bytes are sound; see `probe_group_sound`.
pub fn sound(part: &[u8; GROUP_BYTES], n: u32, k: u32) -> bool {
    // SAFETY: a borrowed slice.
    let answer = unsafe { probe_group_sound(part.as_ptr(), part.len(), n, k) };
    match accepted(answer) {
        0 => false,
        1 => true,
        other => panic!("neither sound nor not: {other}"),
    }
}

/// Finds an offset; see `probe_group_find`.
pub fn find(part: &[u8; GROUP_BYTES], offset: u8) -> Found {
    // SAFETY: a borrowed slice.
    let answer = unsafe { probe_group_find(part.as_ptr(), part.len(), offset.into()) };
    Found::unpacked(accepted(answer)).expect("a packed answer")
}

/// Inserts a record; see `probe_group_insert`.
pub fn insert(part: &mut [u8; GROUP_BYTES], record: &[u8; 8], mask: &[u8; 256]) -> usize {
    // SAFETY: three borrowed slices, the first for writing.
    let answer = unsafe {
        probe_group_insert(
            part.as_mut_ptr(),
            part.len(),
            record.as_ptr(),
            record.len(),
            mask.as_ptr(),
            mask.len(),
        )
    };
    accepted(answer) as usize
}

/// Compacts a group; see `probe_group_compact`.
pub fn compact(part: &mut [u8; GROUP_BYTES]) -> usize {
    // SAFETY: a borrowed slice, for writing.
    let answer = unsafe { probe_group_compact(part.as_mut_ptr(), part.len()) };
    accepted(answer) as usize
}

/// The answer to arguments that meet the function's condition.
fn accepted(answer: u64) -> u64 {
    assert_ne!(answer, OUTSIDE, "the arguments don't meet the condition");
    answer
}
