//! A driver: a write buffer before the chip, flushed through the table.

use std::time::{Duration, Instant};

use hedjosur::{Device, Numbers, Refusal};

use crate::budget::{records_learned, stride_runs};
use crate::counts::{Lookups, Times, Writing};
use crate::memory::Usage;
use crate::nand::Nand;

/// A device behind a write buffer, with what is counted.
#[derive(Clone, Debug)]
pub struct Driver {
    numbers: Numbers,
    device: Device<Vec<u8>, Vec<u32>>,
    nand: Nand,
    plan: Vec<u32>,
    erased: Vec<u32>,
    /// The logical pages that wait, in the order of their arrival, each once.
    waiting: Vec<u32>,
    /// How many may wait.
    room: usize,
    /// For each logical page whether it waits, and how often it was written.
    waits: Vec<bool>,
    versions: Vec<u32>,
    /// The writing.
    pub writing: Writing,
    /// The load's lookups.
    pub lookups: Lookups,
    /// The times.
    pub times: Times,
}

impl Driver {
    /// A newly formatted device, all its blocks erased, with a buffer of so many
    /// pages.
    pub fn open(numbers: Numbers, room: usize) -> Result<Driver, Refusal> {
        let Numbers {
            blocks,
            block_pages,
            logical_pages,
            ..
        } = numbers;
        let mut device = Device {
            state: vec![0; numbers.state_len().ok_or(Refusal::BadNumbers)?],
            spare: vec![0; numbers.spare_len().ok_or(Refusal::BadNumbers)?],
        };
        device.format(numbers)?;
        let mut nand = Nand::new(blocks, block_pages);
        (0..blocks).for_each(|block| nand.erase(block));
        Ok(Driver {
            numbers,
            device,
            nand,
            plan: vec![0; block_pages as usize],
            erased: vec![0; blocks as usize],
            waiting: Vec::with_capacity(room),
            room,
            waits: vec![false; logical_pages as usize],
            versions: vec![0; logical_pages as usize],
            writing: Writing::default(),
            lookups: Lookups::default(),
            times: Times::default(),
        })
    }

    /// Writes a logical page: it waits in the buffer, which is flushed when it is
    /// full.
    pub fn write(&mut self, page: u32) -> Result<(), Refusal> {
        let at = page as usize;
        self.writing.written += 1;
        self.versions[at] += 1;
        if !self.waits[at] {
            self.waits[at] = true;
            self.waiting.push(page);
        }
        match self.waiting.len() < self.room {
            true => Ok(()),
            false => self.sync(),
        }
    }

    /// Flushes what waits: sorted where it takes more than one block.
    pub fn sync(&mut self) -> Result<(), Refusal> {
        if self.waiting.is_empty() {
            return Ok(());
        }
        let block = self.plan.len();
        let mut waiting = std::mem::take(&mut self.waiting);
        if waiting.len() > block {
            waiting.sort_unstable();
        }
        let mut stall = Duration::ZERO;
        for batch in waiting.chunks(block) {
            stall += self.flush(batch)?;
        }
        self.times.stall.add(stall);
        for page in &waiting {
            self.waits[*page as usize] = false;
        }
        waiting.clear();
        self.waiting = waiting;
        Ok(())
    }

    /// Flushes a batch, after a collection where there is no room, and answers how
    /// long the calls took.
    fn flush(&mut self, batch: &[u32]) -> Result<Duration, Refusal> {
        let mut stall = Duration::ZERO;
        let flushed = loop {
            let (answer, took) = timed(|| self.device.flush(batch, &mut self.plan));
            stall += took;
            match answer {
                Err(Refusal::NoFreeBlock) => stall += self.collect()?,
                answer => {
                    self.times.flush.add(took);
                    break answer?;
                }
            }
        };
        self.writing.flushes += 1;
        self.writing.flushed += u64::from(flushed.count);
        let sources = &self.plan[..flushed.count as usize];
        let written = sources.iter().map(|arrival| {
            let logical_page = batch[*arrival as usize];
            (logical_page, self.versions[logical_page as usize])
        });
        self.program(flushed.first_page, written.collect());
        Ok(stall)
    }

    fn collect(&mut self) -> Result<Duration, Refusal> {
        let (answer, took) = timed(|| self.device.collect(&mut self.plan, &mut self.erased));
        let collected = answer?;
        self.times.collect.add(took);
        let (copied, erased) = (u64::from(collected.count), u64::from(collected.erased));
        let writing = &mut self.writing;
        writing.collections += 1;
        writing.copied += copied;
        writing.copied_most = writing.copied_most.max(copied);
        writing.erased += erased;
        writing.erased_most = writing.erased_most.max(erased);
        let sources = &self.plan[..copied as usize];
        let written = sources
            .iter()
            .map(|from| self.nand.read(*from).expect("a written page"));
        self.program(collected.first_page, written.collect());
        for block in &self.erased[..erased as usize] {
            self.nand.erase(*block);
        }
        Ok(took)
    }

    /// Programs the pages from this one on with logical pages and their versions, and
    /// counts the records learned from them.
    fn program(&mut self, first_page: u32, written: Vec<(u32, u32)>) {
        let logical_pages = Vec::from_iter(written.iter().map(|(logical_page, _)| *logical_page));
        self.writing.strides += stride_runs(&logical_pages);
        self.writing.learned +=
            records_learned(&logical_pages, first_page, self.numbers.error_bound);
        for (page, content) in (first_page..).zip(written) {
            self.nand.program(page, content);
        }
    }

    /// Reads a logical page: from the buffer, or after a lookup, which is counted.
    pub fn read(&mut self, page: u32) -> Result<(), Refusal> {
        if self.waits.get(page as usize) == Some(&true) {
            self.writing.buffered_reads += 1;
            return Ok(());
        }
        let mut lookups = std::mem::take(&mut self.lookups);
        let read = self.look_up(page, &mut lookups);
        self.lookups = lookups;
        read
    }

    /// Looks every logical page up, once nothing waits; those that were written are
    /// counted.
    pub fn sweep(&mut self) -> Result<Lookups, Refusal> {
        let mut lookups = Lookups::default();
        for page in 0..self.numbers.logical_pages {
            match self.versions[page as usize] {
                0 => self.look_up(page, &mut Lookups::default())?,
                _ => self.look_up(page, &mut lookups)?,
            }
        }
        Ok(lookups)
    }

    /// A lookup: the page that it finds must carry the last write.
    fn look_up(&mut self, page: u32, lookups: &mut Lookups) -> Result<(), Refusal> {
        let (answer, took) = timed(|| self.device.lookup(page));
        let answer = answer?;
        self.times.lookup.add(took);
        lookups.add(answer);
        let carried = answer.page().and_then(|found| self.nand.read(found));
        let written = match self.versions[page as usize] {
            0 => None,
            version => Some((page, version)),
        };
        assert_eq!(carried, written, "logical page {page}: {answer:?}");
        Ok(())
    }

    /// Compacts all groups.
    pub fn compact(&mut self) -> Result<(), Refusal> {
        for group in 0..self.numbers.logical_pages.div_ceil(256) {
            let (answer, took) = timed(|| self.device.compact(group));
            answer?;
            self.times.compact.add(took);
        }
        self.writing.compactions += 1;
        Ok(())
    }

    /// The state, as the calls left it.
    pub fn state(&self) -> &[u8] {
        &self.device.state
    }

    /// What the table has in use.
    pub fn usage(&self) -> Usage {
        Usage::of(self.numbers, &self.device.state)
    }

    /// How many logical pages were ever written.
    pub fn written_pages(&self) -> u64 {
        let written = self.versions.iter().filter(|version| **version != 0);
        written.count() as u64
    }
}

fn timed<T>(call: impl FnOnce() -> T) -> (T, Duration) {
    let start = Instant::now();
    let answer = call();
    (answer, start.elapsed())
}

#[cfg(test)]
mod tests {
    use super::*;

    const SMALLEST: Numbers = Numbers {
        blocks: 3,
        block_pages: 4,
        logical_pages: 4,
        error_bound: 0,
    };

    /// Document 01's case: the third flush needs a collection, which copies one
    /// page and erases two blocks.
    #[test]
    fn a_full_device_is_collected_and_counted() {
        let mut driver = Driver::open(SMALLEST, 1).expect("opened");
        for _ in 0..3 {
            driver.write(0).expect("written");
        }
        let counted = Writing {
            written: 3,
            flushes: 3,
            flushed: 3,
            collections: 1,
            copied: 1,
            copied_most: 1,
            erased: 2,
            erased_most: 2,
            strides: 4,
            learned: 4,
            ..Writing::default()
        };
        assert_eq!(driver.writing, counted);
        assert_eq!(driver.writing.amplification(), 4.0 / 3.0);
        let swept = driver.sweep().expect("swept");
        assert_eq!((swept.found, swept.not_written), (1, 0));
        driver.compact().expect("compacted");
        assert_eq!(driver.usage().records, 1);
    }

    /// A page that is written again while it waits is flushed once; reading it then
    /// is no lookup.
    #[test]
    fn the_buffer_holds_a_page_once() {
        let mut driver = Driver::open(SMALLEST, 4).expect("opened");
        for page in [2, 2, 1] {
            driver.write(page).expect("written");
        }
        driver.read(2).expect("read");
        driver.read(3).expect("read");
        assert_eq!(
            (driver.writing.flushes, driver.writing.buffered_reads),
            (0, 1)
        );
        assert_eq!((driver.lookups.found, driver.lookups.not_written), (0, 1));
        driver.sync().expect("flushed");
        driver.sync().expect("nothing to flush");
        driver.read(2).expect("read");
        assert_eq!((driver.writing.flushes, driver.writing.flushed), (1, 2));
        assert_eq!((driver.lookups.found, driver.written_pages()), (1, 2));
    }

    /// A buffer of two blocks is sorted first, so that each block has a run.
    #[test]
    fn a_larger_buffer_is_sorted() {
        let numbers = Numbers {
            blocks: 9,
            block_pages: 4,
            logical_pages: 16,
            error_bound: 0,
        };
        let mut driver = Driver::open(numbers, 8).expect("opened");
        for page in [7, 0, 6, 1, 5, 2, 4, 3] {
            driver.write(page).expect("written");
        }
        assert_eq!((driver.writing.flushes, driver.usage().records), (2, 2));
    }
}
