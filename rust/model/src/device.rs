//! The device: its four numbers, their limits, and what follows from them.

use std::ops::Range;

/// Logical pages in a group: 'a logical page's group is its number divided by
/// 256, its offset the remainder'.
pub const GROUP_PAGES: u32 = 256;

/// A device whose numbers are inside their limits.
#[derive(Clone, Copy, Debug, PartialEq, Eq)]
pub struct Device {
    /// M, the number of blocks.
    pub blocks: u32,
    /// B, the pages of a block.
    pub block_pages: u32,
    /// N, the number of logical pages.
    pub logical_pages: u32,
    /// g, the error bound (the paper's gamma).
    pub bound: u32,
}

impl Device {
    /// The device of M, B, N and g, if they are inside their limits: 'M blocks
    /// (3 to 4,096) of B pages (4 to 256), N logical pages (at least 1, with
    /// 2 × N at most (M − 1) × B) and an error bound g (0 to 15)'.
    pub fn new([blocks, block_pages, logical_pages, bound]: [u32; 4]) -> Option<Device> {
        let inside = (3..=4096).contains(&blocks)
            && (4..=256).contains(&block_pages)
            && logical_pages >= 1
            && 2 * u64::from(logical_pages) <= u64::from(blocks - 1) * u64::from(block_pages)
            && bound <= 15;
        inside.then_some(Device {
            blocks,
            block_pages,
            logical_pages,
            bound,
        })
    }

    /// M, B, N and g, in the order in which format takes them.
    pub fn numbers(&self) -> [u32; 4] {
        [
            self.blocks,
            self.block_pages,
            self.logical_pages,
            self.bound,
        ]
    }

    /// The number of pages: 'page numbers run from 0'.
    pub fn pages(&self) -> u32 {
        self.blocks * self.block_pages
    }

    /// 'Block k holds pages k × B to k × B + B − 1.'
    pub fn pages_of_block(&self, block: u32) -> Range<u32> {
        block * self.block_pages..(block + 1) * self.block_pages
    }

    /// 'Each page has 2g + 1 spare entries.'
    pub fn entries_per_page(&self) -> usize {
        2 * self.bound as usize + 1
    }

    /// The spare entries of a block's pages.
    pub fn entries_per_block(&self) -> usize {
        self.block_pages as usize * self.entries_per_page()
    }

    /// The entries of the whole spare area, 'stored page after page'.
    pub fn spare_length(&self) -> usize {
        self.pages() as usize * self.entries_per_page()
    }

    /// The number of groups that N logical pages need.
    pub fn groups(&self) -> usize {
        self.logical_pages.div_ceil(GROUP_PAGES) as usize
    }

    /// The bits of the discard marks: one for each logical page, in whole bytes.
    pub fn mark_bits(&self) -> usize {
        self.logical_pages.next_multiple_of(8) as usize
    }
}

/// The group of a logical page (the quotient, not Algorithm 1's remainder).
pub fn group_of(logical_page: u32) -> usize {
    (logical_page / GROUP_PAGES) as usize
}

/// The offset of a logical page in its group.
pub fn offset_of(logical_page: u32) -> u8 {
    (logical_page % GROUP_PAGES) as u8
}
