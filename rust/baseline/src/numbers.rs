//! The device's numbers and what follows from them.

use hedjosur_layout::{COUNT_BYTES, ENTRY_BYTES, GROUP_BYTES, HEAD_BYTES};
use hedjosur_model::device::GROUP_PAGES;
use hedjosur_model::ops::Refusal;

/// The most pages of a block.
const BLOCK_PAGES: usize = 256;

/// For each number of pages of a block, 2^32 divided by it and rounded up: a page's
/// block without a division.
static RECIPROCALS: [u32; BLOCK_PAGES + 1] = reciprocals();

const fn reciprocals() -> [u32; BLOCK_PAGES + 1] {
    let mut table = [0; BLOCK_PAGES + 1];
    let mut block_pages = 4;
    while block_pages <= BLOCK_PAGES {
        table[block_pages] = (1u64 << 32).div_ceil(block_pages as u64) as u32;
        block_pages += 1;
    }
    table
}

/// The block of a page, by the reciprocal of its device.
#[inline]
pub fn block_of(page: u32, reciprocal: u32) -> usize {
    ((u64::from(page) * u64::from(reciprocal)) >> 32) as usize
}

/// M, B, N and g, inside their limits.
#[derive(Clone, Copy, Debug)]
pub struct Numbers {
    pub blocks: u32,
    pub block_pages: u32,
    pub logical_pages: u32,
    pub bound: u32,
}

impl Numbers {
    /// The numbers, if they are inside their limits.
    #[inline]
    pub fn new([blocks, block_pages, logical_pages, bound]: [u32; 4]) -> Option<Numbers> {
        let inside = (3..=4096).contains(&blocks)
            && (4..=256).contains(&block_pages)
            && logical_pages >= 1
            && logical_pages <= (blocks - 1) * block_pages / 2
            && bound <= 15;
        inside.then_some(Numbers {
            blocks,
            block_pages,
            logical_pages,
            bound,
        })
    }

    /// The numbers of a state of either engine, or refusal 1.
    #[inline]
    pub fn of_state(state: &[u8]) -> Result<Numbers, Refusal> {
        let head = state.first_chunk::<HEAD_BYTES>();
        let (numbers, _) = head.ok_or(Refusal::BadNumbers)?.as_chunks::<4>();
        let numbers = std::array::from_fn(|i| u32::from_le_bytes(numbers[i]));
        Numbers::new(numbers).ok_or(Refusal::BadNumbers)
    }

    /// Writes the numbers to the front of a state.
    pub fn write(&self, state: &mut [u8]) {
        let numbers = [
            self.blocks,
            self.block_pages,
            self.logical_pages,
            self.bound,
        ];
        let (head, _) = state[..HEAD_BYTES].as_chunks_mut::<4>();
        for (bytes, number) in head.iter_mut().zip(numbers) {
            *bytes = number.to_le_bytes();
        }
    }

    /// The number of pages.
    #[inline]
    pub fn pages(&self) -> u32 {
        self.blocks * self.block_pages
    }

    /// What the block of a page is told by; see [`block_of`].
    #[inline]
    pub fn reciprocal(&self) -> u32 {
        RECIPROCALS[self.block_pages as usize]
    }

    /// The block of a page; a number that is no page's gives no block's.
    #[inline]
    pub fn block_of(&self, page: u32) -> usize {
        block_of(page, self.reciprocal())
    }

    /// The number of groups.
    #[inline]
    pub fn groups(&self) -> usize {
        self.logical_pages.div_ceil(GROUP_PAGES) as usize
    }

    /// The number of offsets of a group.
    #[inline]
    pub fn offsets(&self, group: usize) -> usize {
        let before = GROUP_PAGES * group as u32;
        let offsets = self.logical_pages.saturating_sub(before);
        offsets.min(GROUP_PAGES) as usize
    }

    /// The spare entries of a page.
    #[inline]
    pub fn width(&self) -> usize {
        2 * self.bound as usize + 1
    }

    /// The spare entries of all pages.
    #[inline]
    pub fn spare_entries(&self) -> usize {
        self.pages() as usize * self.width()
    }

    /// Where the counts end in a state of either engine.
    #[inline]
    pub fn counts_end(&self) -> usize {
        HEAD_BYTES + COUNT_BYTES * self.blocks as usize
    }

    /// Where the groups begin in the learned engine's state.
    #[inline]
    pub fn groups_at(&self) -> usize {
        self.counts_end() + self.logical_pages.div_ceil(8) as usize
    }

    /// The length of the learned engine's state.
    #[inline]
    pub fn state_bytes(&self) -> usize {
        self.groups_at() + GROUP_BYTES * self.groups()
    }

    /// The length of the plain engine's state.
    #[inline]
    pub fn plain_state_bytes(&self) -> usize {
        self.counts_end() + ENTRY_BYTES * self.logical_pages as usize
    }
}

#[cfg(test)]
mod tests {
    use super::Numbers;

    #[test]
    fn blocks_are_quotients() {
        for block_pages in 4..=256 {
            let device = Numbers::new([4096, block_pages, 1, 0]).expect("a device");
            for block in 0..device.blocks {
                let pages = block * block_pages..(block + 1) * block_pages;
                assert_eq!(device.block_of(pages.start), block as usize);
                assert_eq!(device.block_of(pages.end - 1), block as usize);
            }
            assert!(device.block_of(device.pages()) >= 4096);
            assert!(device.block_of(u32::MAX) >= 4096);
        }
    }
}
