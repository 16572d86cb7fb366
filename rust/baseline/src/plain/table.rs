//! The regions of a state.

use hedjosur_layout::{ENTRY_BYTES, HEAD_BYTES};
use hedjosur_model::ops::Refusal;

use crate::blocks::{require, Count};
use crate::numbers::Numbers;

/// A logical page's entry, in bytes.
pub(super) type Entry = [u8; ENTRY_BYTES];

/// What a state holds behind its numbers.
#[derive(Clone, Copy)]
pub(super) struct Table<'a> {
    pub counts: &'a [Count],
    pub entries: &'a [Entry],
}

/// As [`Table`], for writing.
pub(super) struct TableMut<'a> {
    pub counts: &'a mut [Count],
    pub entries: &'a mut [Entry],
}

/// The numbers of a state, or refusal 1 or 2.
#[inline]
pub(super) fn open(state: &[u8]) -> Result<Numbers, Refusal> {
    let device = Numbers::of_state(state)?;
    let length = device.plain_state_bytes();
    require(state.len() == length, Refusal::BadLength)?;
    Ok(device)
}

/// The regions of a state whose length fits.
#[inline]
pub(super) fn table<'a>(device: &Numbers, state: &'a [u8]) -> Table<'a> {
    let (before, entries) = state.split_at(device.counts_end());
    Table {
        counts: before[HEAD_BYTES..].as_chunks().0,
        entries: entries.as_chunks().0,
    }
}

/// As [`table`], for writing.
#[inline]
pub(super) fn table_mut<'a>(device: &Numbers, state: &'a mut [u8]) -> TableMut<'a> {
    let (before, entries) = state.split_at_mut(device.counts_end());
    TableMut {
        counts: before[HEAD_BYTES..].as_chunks_mut().0,
        entries: entries.as_chunks_mut().0,
    }
}

impl TableMut<'_> {
    /// Puts sorted logical pages on a block; answers the first page.
    pub fn store(&mut self, device: &Numbers, block: usize, written: &[u32]) -> u32 {
        self.counts[block] = (written.len() as u16).to_le_bytes();
        let first = block as u32 * device.block_pages;
        for (&logical_page, page) in written.iter().zip(first..) {
            self.entries[logical_page as usize] = page.to_le_bytes();
        }
        first
    }
}
