//! Random steps of a history.

use hedjosur_model::device::Device;
use hedjosur_model::testing::{batch, full_device};

use crate::history::History;

impl History<'_> {
    /// 'A flush refused for want of a free block is accepted after one
    /// collection'.
    pub fn flush_by_any_means(&mut self, batch: &[u32], between: impl Fn(&mut Self)) {
        if self.flush(batch).is_err() {
            between(self);
            assert!(self.collection().is_ok());
            between(self);
            assert!(self.flush(batch).is_ok());
            self.events.flush_after_collection += 1;
        }
    }

    /// 'Whatever lookups, compactions and refused calls come between', and
    /// discards; and telling why, which writes neither state nor spare area.
    fn interlude(&mut self) {
        for _ in 0..self.random.below(4) {
            match self.random.below(5) {
                0 => self.lookup(),
                1 => self.compaction(),
                2 => self.why(),
                3 => {
                    self.discard();
                    self.events.discarded_before_a_repeat += 1;
                }
                _ => self.refused_call(),
            }
        }
    }

    /// One random call, or a few that belong together.
    pub fn step(&mut self) {
        match self.random.below(19) {
            0..=8 => {
                let batch = batch(self.random, &self.device);
                self.flush_by_any_means(&batch, Self::interlude);
            }
            9 => drop(self.collection()),
            10 => self.compaction(),
            11 => self.lookup(),
            12 | 13 => self.refused_call(),
            14 => self.agreement(),
            15 | 16 => self.discard(),
            17 => self.why(),
            _ if self.random.once_in(8) => self.reformat(),
            _ => self.lookup(),
        }
    }

    /// Formats again, with an N that may be another one of as many bytes of
    /// marks, hence of as many groups.
    fn reformat(&mut self) {
        let Device {
            blocks,
            block_pages,
            bound,
            ..
        } = self.device;
        let full = full_device(blocks, block_pages, bound);
        let most = self.device.mark_bits() as u32;
        let logical_pages = self.random.between(most - 7, most.min(full.logical_pages));
        self.events.reformat += 1;
        self.format(Device {
            logical_pages,
            ..full
        });
    }
}
