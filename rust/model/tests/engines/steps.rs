//! Random steps of a list.

use hedjosur_model::ops::Refusal;
use hedjosur_model::testing::{
    any_list, any_logical_page, batch, lists, perhaps_wrong, small_device,
};

use crate::engines::Engines;

impl Engines<'_> {
    /// One random call, or a few that belong together, or a format of another device.
    pub fn step(&mut self) {
        match self.random.below(40) {
            0 => {
                let numbers = small_device(self.random).numbers();
                assert_eq!(self.format(numbers), Ok(()));
            }
            _ => self.call(),
        }
    }

    /// One random call, or a few that belong together.
    pub fn call(&mut self) {
        match self.random.below(20) {
            0..=7 => self.flush_by_any_means(),
            8..=10 => self.any_flush(),
            11..=13 => self.any_collection(),
            _ => self.call_between(),
        }
    }

    /// 'A flush refused for want of a free block is accepted after one collection',
    /// whatever comes between.
    fn flush_by_any_means(&mut self) {
        let batch = batch(self.random, &self.device);
        let [plan, erased] = lists(&self.device);
        if let Err(refusal) = self.flush(&batch, plan.clone()) {
            assert_eq!(refusal, Refusal::NoFreeBlock);
            self.calls_between();
            assert!(self.collection([plan.clone(), erased]).is_ok());
            self.calls_between();
            assert!(self.flush(&batch, plan).is_ok());
        }
    }

    fn calls_between(&mut self) {
        for _ in 0..self.random.below(4) {
            self.call_between();
        }
    }

    /// A call that may come between a refused flush and its repeat.
    fn call_between(&mut self) {
        let logical_page = any_logical_page(self.random, self.device.logical_pages.into());
        match self.random.below(7) {
            0 | 1 => self.lookup(logical_page),
            2 | 3 => self.discard(logical_page),
            4 => self.compaction(),
            5 => self.agreement(),
            _ => self.refused_call(),
        }
    }

    /// A call that is refused for its arguments.
    fn refused_call(&mut self) {
        let [plan, erased] = lists(&self.device);
        let short = plan[1..].to_vec();
        let refusal = match self.random.below(4) {
            0 => self.flush(&[], plan).err(),
            1 => self.flush(&[0], short).err(),
            2 => self.collection([short, erased]).err(),
            _ => {
                let mut numbers = self.device.numbers();
                let (number, outside) = self.random.pick(&[(0, 2), (1, 3), (2, 0), (3, 16)]);
                numbers[number] = outside;
                self.format(numbers).err()
            }
        };
        assert!(refusal.is_some());
    }

    /// A flush of any batch with a plan of any length.
    fn any_flush(&mut self) {
        let (block_pages, logical_pages) = (self.device.block_pages, self.device.logical_pages);
        let pages = batch(self.random, &self.device);
        let pages = perhaps_wrong(self.random, pages, block_pages, logical_pages);
        let plan = any_list(self.random, block_pages.into());
        let _ = self.flush(&pages, plan);
    }

    /// A collection with lists of any length.
    fn any_collection(&mut self) {
        let lengths = [self.device.block_pages, self.device.blocks];
        let lists = lengths.map(|length| any_list(self.random, length.into()));
        let _ = self.collection(lists);
    }
}
