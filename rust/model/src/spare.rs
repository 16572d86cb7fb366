//! The spare area: 'a layer of its own: it erases whole blocks, and programs
//! each page of a block once after the erase'. The block that a flush or
//! collection opens is written in one pass, and 'the layer counts this as erase
//! and programming'.
//!
//! The area is lent as a slice of 32-bit entries, 2g + 1 for each page, stored
//! page after page. These functions expect a slice of the right length.

use crate::device::Device;

/// An entry that names nobody.
pub const NOBODY: u32 = 4_294_967_295;

/// The entries of one page.
pub fn entries<'a>(device: &Device, area: &'a [u32], page: u32) -> &'a [u32] {
    let width = device.entries_per_page();
    &area[page as usize * width..][..width]
}

/// The middle entry of a page: what was written on the page itself.
pub fn middle(device: &Device, area: &[u32], page: u32) -> u32 {
    entries(device, area, page)[device.bound as usize]
}

/// Erases a whole block: all its pages name nobody.
pub fn erase(device: &Device, area: &mut [u32], block: u32) {
    let length = device.entries_per_block();
    area[block as usize * length..][..length].fill(NOBODY);
}

/// The entries of `page` when one flush or collection wrote `written` on
/// consecutive pages from `first`, this page among them: 'entry j of page p names
/// the logical page that the same flush or collection wrote at p − g + j, or
/// 4,294,967,295 if it wrote none there'.
pub fn neighbours(device: &Device, first: u32, written: &[u32], page: u32) -> Vec<u32> {
    (0..device.entries_per_page())
        .map(|j| {
            let neighbour = page_of_entry(device, page, j);
            usize::try_from(neighbour - i64::from(first))
                .ok()
                .and_then(|i| written.get(i).copied())
                .unwrap_or(NOBODY)
        })
        .collect()
}

/// Writes the whole block that a flush or collection opens, with `written` on its
/// first pages.
pub fn write(device: &Device, area: &mut [u32], block: u32, written: &[u32]) {
    pass(device, area, block, written, device.entries_per_block());
}

/// The pass over that block, stopped after `stop` entries: 'each entry of a flush's
/// or collection's block written a single time', page after page, entry 0 to last,
/// the unused pages' too. No erase comes first: the pass 'leaves the block's first
/// k final and every other byte as lent'. A stop behind the last entry stops
/// nothing.
pub fn pass(device: &Device, area: &mut [u32], block: u32, written: &[u32], stop: usize) {
    let pages = device.pages_of_block(block);
    let names = pages.flat_map(|page| final_entries(device, block, written, page));
    let from = block as usize * device.entries_per_block();
    for (entry, named) in area[from..].iter_mut().zip(names).take(stop) {
        *entry = named;
    }
}

/// The entries that the whole pass leaves a page of its block: 'the pages it
/// doesn't use name nobody', however near to a page that it uses.
fn final_entries(device: &Device, block: u32, written: &[u32], page: u32) -> Vec<u32> {
    let first = device.pages_of_block(block).start;
    match page < first + written.len() as u32 {
        true => neighbours(device, first, written, page),
        false => vec![NOBODY; device.entries_per_page()],
    }
}

/// The page that a lookup answers, from the predicted page's entries alone:
/// 'the page is the predicted one if its middle spare entry names the logical
/// page, else the one of the lowest entry there that does'. 'An entry for a
/// page that doesn't exist names nobody.'
pub fn find(device: &Device, area: &[u32], predicted: u32, logical_page: u32) -> Option<u32> {
    if middle(device, area, predicted) == logical_page {
        return Some(predicted);
    }
    entries(device, area, predicted)
        .iter()
        .enumerate()
        .filter(|&(_, &named)| named == logical_page)
        .find_map(|(j, _)| existing(device, page_of_entry(device, predicted, j)))
}

/// A page number that may lie outside the device, as a page if it exists.
pub fn existing(device: &Device, page: i64) -> Option<u32> {
    u32::try_from(page)
        .ok()
        .filter(|&page| page < device.pages())
}

/// The page that entry `j` of `page` is about: p − g + j.
fn page_of_entry(device: &Device, page: u32, j: usize) -> i64 {
    i64::from(page) - i64::from(device.bound) + j as i64
}
