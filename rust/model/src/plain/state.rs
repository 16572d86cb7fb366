//! The plain engine's state: M, B, N, g, each block's count of written pages and, for
//! each logical page, an entry. Its length is told by how many counts and entries it
//! has room for, as [`crate::state`] says of the learned engine's.

use std::collections::BTreeSet;

use crate::device::Device;
use crate::sound::counts_fit;
use crate::state::Contents;

/// The entry of a logical page that is not written, or discarded since.
pub const NOT_WRITTEN: u32 = 4_294_967_295;

/// The contents of a state slice. Nothing here needs to be inside limits, of the
/// right length, or sound.
#[derive(Clone, Debug, PartialEq, Eq)]
pub struct State {
    /// M, B, N and g.
    pub numbers: [u32; 4],
    /// Each block's count of written pages; 0 is free.
    pub counts: Vec<u32>,
    /// Each logical page's page, or [`NOT_WRITTEN`].
    pub entries: Vec<u32>,
}

/// The bytes of a state of these numbers, 0 where one is outside its limits: four
/// numbers of 4 bytes, M counts of 2 and N entries of 4.
pub fn state_bytes(numbers: [u32; 4]) -> usize {
    Device::new(numbers).map_or(0, |device| {
        16 + 2 * device.blocks as usize + 4 * device.logical_pages as usize
    })
}

impl State {
    /// A newly formatted device's.
    pub fn formatted(device: &Device) -> State {
        State {
            numbers: device.numbers(),
            counts: vec![0; device.blocks as usize],
            entries: vec![NOT_WRITTEN; device.logical_pages as usize],
        }
    }

    /// Whether flush and collection don't refuse 3: each entry is right, and there
    /// are not 'also two entries naming one page, or a count above B'.
    pub fn is_sound(&self, device: &Device) -> bool {
        let mut named = BTreeSet::new();
        let pages = self.entries.iter().filter(|&&entry| entry != NOT_WRITTEN);
        self.entries.iter().all(|&entry| self.allows(device, entry))
            && pages.into_iter().all(|page| named.insert(page))
            && counts_fit(device, &self.counts)
    }

    /// Whether an entry is '4,294,967,295 (not written)' or 'a written page'.
    pub fn allows(&self, device: &Device, entry: u32) -> bool {
        entry == NOT_WRITTEN || self.is_written(device, entry)
    }

    /// Whether a page exists and its place in its block is below the block's count.
    fn is_written(&self, device: &Device, page: u32) -> bool {
        let block = page / device.block_pages;
        let place = page % device.block_pages;
        block < device.blocks && place < self.counts[block as usize]
    }
}

impl Contents for State {
    fn numbers(&self) -> [u32; 4] {
        self.numbers
    }

    fn fits(&self, device: &Device) -> bool {
        self.counts.len() == device.blocks as usize
            && self.entries.len() == device.logical_pages as usize
    }
}
