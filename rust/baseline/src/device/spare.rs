//! The spare area.

use hedjosur_model::spare::NOBODY;

use crate::numbers::Numbers;
use crate::sort::BATCH;

/// The greatest error bound.
const MOST_BOUND: usize = 15;

/// Writes the entries of a block's first pages; see [`program`].
type Program = fn(entries: &mut [u32], around: &[u32]);

/// For each error bound, its [`program`]: the compiler knows how many entries it copies.
static PROGRAMS: [Program; MOST_BOUND + 1] = [
    program::<1>,
    program::<3>,
    program::<5>,
    program::<7>,
    program::<9>,
    program::<11>,
    program::<13>,
    program::<15>,
    program::<17>,
    program::<19>,
    program::<21>,
    program::<23>,
    program::<25>,
    program::<27>,
    program::<29>,
    program::<31>,
];

/// The entries of a block.
fn block_entries<'a>(device: &Numbers, area: &'a mut [u32], block: usize) -> &'a mut [u32] {
    let length = device.block_pages as usize * device.width();
    &mut area[block * length..][..length]
}

/// Erases a block: its pages name nobody.
pub(super) fn erase(device: &Numbers, area: &mut [u32], block: usize) {
    block_entries(device, area, block).fill(NOBODY);
}

/// Erases a block and programs its first pages: each entry is written once.
pub(super) fn write(device: &Numbers, area: &mut [u32], block: usize, written: &[u32]) {
    let bound = device.bound as usize;
    let entries = block_entries(device, area, block);
    let (programmed, erased) = entries.split_at_mut(written.len() * device.width());
    erased.fill(NOBODY);
    // What was written, with as many entries that name nobody around it as are needed.
    let mut around = [NOBODY; BATCH + 2 * MOST_BOUND];
    around[bound..][..written.len()].copy_from_slice(written);
    PROGRAMS[bound](programmed, &around);
}

/// The same on a device of M, B, N and g, for tests and benchmarks. Panics where these,
/// a length or the block is outside its limits.
pub fn program_block(numbers: [u32; 4], area: &mut [u32], block: usize, written: &[u32]) {
    let device = Numbers::new(numbers).expect("numbers inside their limits");
    assert_eq!(area.len(), device.spare_entries());
    write(&device, area, block, written);
}

/// Writes the entries of a block's first pages, so many each: entry j of page i is
/// number i + j of those around.
fn program<const WIDTH: usize>(entries: &mut [u32], around: &[u32]) {
    let (pages, _) = entries.as_chunks_mut::<WIDTH>();
    for (page, named) in pages.iter_mut().zip(around.windows(WIDTH)) {
        page.copy_from_slice(named);
    }
}

/// The middle entry of a page.
#[inline]
pub(super) fn middle(device: &Numbers, area: &[u32], page: u32) -> u32 {
    area[page as usize * device.width() + device.bound as usize]
}

/// The page that holds a logical page, told by the predicted page's entries.
#[inline]
pub(super) fn resolve(device: &Numbers, area: &[u32], predicted: u32, logical: u32) -> Option<u32> {
    match middle(device, area, predicted) == logical {
        true => Some(predicted),
        false => named(device, area, predicted, logical),
    }
}

/// The page of the lowest entry that names a logical page. Entries for pages that
/// don't exist are left out.
fn named(device: &Numbers, area: &[u32], predicted: u32, logical: u32) -> Option<u32> {
    let entries = &area[predicted as usize * device.width()..][..device.width()];
    let first = device.bound.saturating_sub(predicted);
    let after = (device.pages() + device.bound - predicted).min(device.width() as u32);
    let existing = &entries[first as usize..after as usize];
    let at = existing.iter().position(|&named| named == logical)?;
    Some(predicted + first + at as u32 - device.bound)
}
