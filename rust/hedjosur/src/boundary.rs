//! The declarations and the only `unsafe` code.
//!
//! Each call is safe for one reason: pointer and length are those of a slice that
//! is borrowed for the time of the call, `&mut` where the function writes. The
//! functions require nothing else of their arguments, and each answer is a number
//! that `answers` takes apart.

use crate::Numbers;

extern "C" {
    fn hedjosur_state_len(m: u32, b: u32, n: u32, g: u32) -> u64;

    fn hedjosur_spare_len(m: u32, b: u32, n: u32, g: u32) -> u64;

    fn hedjosur_format(
        m: u32,
        b: u32,
        n: u32,
        g: u32,
        state: *mut u8,
        state_len: usize,
        spare: *mut u32,
        spare_len: usize,
    ) -> u64;

    fn hedjosur_flush(
        state: *mut u8,
        state_len: usize,
        spare: *mut u32,
        spare_len: usize,
        batch: *const u32,
        batch_len: usize,
        plan: *mut u32,
        plan_len: usize,
    ) -> u64;

    fn hedjosur_lookup(
        state: *const u8,
        state_len: usize,
        spare: *const u32,
        spare_len: usize,
        page: u32,
    ) -> u64;

    fn hedjosur_discard(
        state: *mut u8,
        state_len: usize,
        spare: *const u32,
        spare_len: usize,
        page: u32,
    ) -> u64;

    fn hedjosur_collect(
        state: *mut u8,
        state_len: usize,
        spare: *mut u32,
        spare_len: usize,
        plan: *mut u32,
        plan_len: usize,
        erased: *mut u32,
        erased_len: usize,
    ) -> u64;

    fn hedjosur_compact(state: *mut u8, state_len: usize, group: u32) -> u64;

    fn hedjosur_agree(
        state_a: *const u8,
        state_a_len: usize,
        spare_a: *const u32,
        spare_a_len: usize,
        state_b: *const u8,
        state_b_len: usize,
        spare_b: *const u32,
        spare_b_len: usize,
    ) -> u64;

    fn hedjosur_list(
        state: *const u8,
        state_len: usize,
        group: u32,
        out: *mut u8,
        out_len: usize,
    ) -> u64;

    fn hedjosur_why(
        state: *const u8,
        state_len: usize,
        page: u32,
        out: *mut u8,
        out_len: usize,
    ) -> u64;

    fn hedjosur_plain_state_len(m: u32, b: u32, n: u32, g: u32) -> u64;

    fn hedjosur_plain_format(
        m: u32,
        b: u32,
        n: u32,
        g: u32,
        state: *mut u8,
        state_len: usize,
    ) -> u64;

    fn hedjosur_plain_flush(
        state: *mut u8,
        state_len: usize,
        batch: *const u32,
        batch_len: usize,
        plan: *mut u32,
        plan_len: usize,
    ) -> u64;

    fn hedjosur_plain_lookup(state: *const u8, state_len: usize, page: u32) -> u64;

    fn hedjosur_plain_discard(state: *mut u8, state_len: usize, page: u32) -> u64;

    fn hedjosur_plain_collect(
        state: *mut u8,
        state_len: usize,
        plan: *mut u32,
        plan_len: usize,
        erased: *mut u32,
        erased_len: usize,
    ) -> u64;
}

#[inline]
pub(crate) fn state_len(numbers: Numbers) -> u64 {
    let [m, b, n, g] = numbers.in_order();
    // SAFETY: numbers alone.
    unsafe { hedjosur_state_len(m, b, n, g) }
}

#[inline]
pub(crate) fn spare_len(numbers: Numbers) -> u64 {
    let [m, b, n, g] = numbers.in_order();
    // SAFETY: numbers alone.
    unsafe { hedjosur_spare_len(m, b, n, g) }
}

#[inline]
pub(crate) fn format(numbers: Numbers, state: &mut [u8], spare: &mut [u32]) -> u64 {
    let [m, b, n, g] = numbers.in_order();
    // SAFETY: two borrowed slices, both for writing.
    unsafe {
        hedjosur_format(
            m,
            b,
            n,
            g,
            state.as_mut_ptr(),
            state.len(),
            spare.as_mut_ptr(),
            spare.len(),
        )
    }
}

#[inline]
pub(crate) fn flush(state: &mut [u8], spare: &mut [u32], batch: &[u32], plan: &mut [u32]) -> u64 {
    // SAFETY: four borrowed slices, all but the batch for writing.
    unsafe {
        hedjosur_flush(
            state.as_mut_ptr(),
            state.len(),
            spare.as_mut_ptr(),
            spare.len(),
            batch.as_ptr(),
            batch.len(),
            plan.as_mut_ptr(),
            plan.len(),
        )
    }
}

#[inline]
pub(crate) fn lookup(state: &[u8], spare: &[u32], page: u32) -> u64 {
    // SAFETY: two borrowed slices.
    unsafe {
        hedjosur_lookup(
            state.as_ptr(),
            state.len(),
            spare.as_ptr(),
            spare.len(),
            page,
        )
    }
}

#[inline]
pub(crate) fn discard(state: &mut [u8], spare: &[u32], page: u32) -> u64 {
    // SAFETY: two borrowed slices, the first for writing.
    unsafe {
        hedjosur_discard(
            state.as_mut_ptr(),
            state.len(),
            spare.as_ptr(),
            spare.len(),
            page,
        )
    }
}

#[inline]
pub(crate) fn collect(
    state: &mut [u8],
    spare: &mut [u32],
    plan: &mut [u32],
    erased: &mut [u32],
) -> u64 {
    // SAFETY: four borrowed slices, all for writing.
    unsafe {
        hedjosur_collect(
            state.as_mut_ptr(),
            state.len(),
            spare.as_mut_ptr(),
            spare.len(),
            plan.as_mut_ptr(),
            plan.len(),
            erased.as_mut_ptr(),
            erased.len(),
        )
    }
}

#[inline]
pub(crate) fn compact(state: &mut [u8], group: u32) -> u64 {
    // SAFETY: a borrowed slice, for writing.
    unsafe { hedjosur_compact(state.as_mut_ptr(), state.len(), group) }
}

#[inline]
pub(crate) fn agree(
    (state, spare): (&[u8], &[u32]),
    (other_state, other_spare): (&[u8], &[u32]),
) -> u64 {
    // SAFETY: four borrowed slices.
    unsafe {
        hedjosur_agree(
            state.as_ptr(),
            state.len(),
            spare.as_ptr(),
            spare.len(),
            other_state.as_ptr(),
            other_state.len(),
            other_spare.as_ptr(),
            other_spare.len(),
        )
    }
}

#[inline]
pub(crate) fn list(state: &[u8], group: u32, out: &mut [u8]) -> u64 {
    // SAFETY: two borrowed slices, the second for writing.
    unsafe {
        hedjosur_list(
            state.as_ptr(),
            state.len(),
            group,
            out.as_mut_ptr(),
            out.len(),
        )
    }
}

#[inline]
pub(crate) fn why(state: &[u8], page: u32, out: &mut [u8]) -> u64 {
    // SAFETY: two borrowed slices, the second for writing.
    unsafe {
        hedjosur_why(
            state.as_ptr(),
            state.len(),
            page,
            out.as_mut_ptr(),
            out.len(),
        )
    }
}

#[inline]
pub(crate) fn plain_state_len(numbers: Numbers) -> u64 {
    let [m, b, n, g] = numbers.in_order();
    // SAFETY: numbers alone.
    unsafe { hedjosur_plain_state_len(m, b, n, g) }
}

#[inline]
pub(crate) fn plain_format(numbers: Numbers, state: &mut [u8]) -> u64 {
    let [m, b, n, g] = numbers.in_order();
    // SAFETY: a borrowed slice, for writing.
    unsafe { hedjosur_plain_format(m, b, n, g, state.as_mut_ptr(), state.len()) }
}

#[inline]
pub(crate) fn plain_flush(state: &mut [u8], batch: &[u32], plan: &mut [u32]) -> u64 {
    // SAFETY: three borrowed slices, all but the batch for writing.
    unsafe {
        hedjosur_plain_flush(
            state.as_mut_ptr(),
            state.len(),
            batch.as_ptr(),
            batch.len(),
            plan.as_mut_ptr(),
            plan.len(),
        )
    }
}

#[inline]
pub(crate) fn plain_lookup(state: &[u8], page: u32) -> u64 {
    // SAFETY: a borrowed slice.
    unsafe { hedjosur_plain_lookup(state.as_ptr(), state.len(), page) }
}

#[inline]
pub(crate) fn plain_discard(state: &mut [u8], page: u32) -> u64 {
    // SAFETY: a borrowed slice, for writing.
    unsafe { hedjosur_plain_discard(state.as_mut_ptr(), state.len(), page) }
}

#[inline]
pub(crate) fn plain_collect(state: &mut [u8], plan: &mut [u32], erased: &mut [u32]) -> u64 {
    // SAFETY: three borrowed slices, all for writing.
    unsafe {
        hedjosur_plain_collect(
            state.as_mut_ptr(),
            state.len(),
            plan.as_mut_ptr(),
            plan.len(),
            erased.as_mut_ptr(),
            erased.len(),
        )
    }
}
