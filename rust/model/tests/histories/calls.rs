//! The calls, with the book beside them.

use hedjosur_model::book::{Event, Heard};
use hedjosur_model::device::Device;
use hedjosur_model::ops::{self, Collected, Flushed, Lookup, Refusal};
use hedjosur_model::testing::{lists, World};

use crate::history::History;

impl History<'_> {
    /// An accepted format of a device of the same lengths.
    pub fn format(&mut self, device: Device) {
        let numbers = device.numbers();
        self.log.note(("format", numbers));
        let World { lent, area } = &mut self.world;
        assert_eq!(ops::format(lent, area, numbers), Ok(()));
        self.device = device;
        self.book.hear(Heard::Format(numbers));
        self.check();
    }

    /// A flush with a plan of the right length, which only refuses for want of
    /// a free block.
    pub fn flush(&mut self, batch: &[u32]) -> Result<Flushed, Refusal> {
        self.log.note(("flush", batch));
        let before = self.world.clone();
        let [mut plan, _] = lists(&self.device);
        let World { lent, area } = &mut self.world;
        let answer = ops::flush(lent, area, batch, &mut plan);
        match answer {
            Ok(flushed) => {
                let discarded = |&&page: &&u32| self.book.last_event(page) == Some(Event::Discard);
                self.events.written_again += batch.iter().filter(discarded).count();
                self.book.hear(Heard::Flush(batch, flushed, &plan));
                self.watch(&before, flushed.first, flushed.count);
            }
            Err(refusal) => {
                assert_eq!(refusal, Refusal::NoFreeBlock);
                assert_eq!(plan, lists(&self.device)[0]);
                self.refused(&before);
            }
        }
        self.check();
        answer
    }

    /// A collection with lists of the right lengths: '3, 7 and 6 here never
    /// occur'.
    pub fn collection(&mut self) -> Result<Collected, Refusal> {
        self.log.note("collection");
        let expected = self.expected_collection();
        let before = self.world.clone();
        let [mut plan, mut erased] = lists(&self.device);
        let World { lent, area } = &mut self.world;
        let answer = ops::collection(lent, area, &mut plan, &mut erased);
        match answer {
            Ok(collected) => {
                self.book.hear(Heard::Collection(collected, &plan, &erased));
                self.watch(&before, collected.first, collected.count);
                plan.truncate(collected.count as usize);
                erased.truncate(collected.erased as usize);
                assert_eq!(Some([plan, erased]), expected);
                match collected.count {
                    0 => self.events.nothing_to_copy += 1,
                    _ => self.events.collected += 1,
                }
            }
            Err(refusal) => {
                assert_eq!((refusal, None), (Refusal::NothingToGain, expected));
                assert_eq!([plan, erased], lists(&self.device));
                self.events.nothing_to_gain += 1;
                self.refused(&before);
            }
        }
        self.check();
        answer
    }

    /// An accepted compaction.
    pub fn compaction(&mut self) {
        let group = self.random.below(self.device.groups() as u32);
        self.log.note(("compaction", group));
        let left = ops::compaction(&mut self.world.lent, group).expect("an accepted compaction");
        assert!(left <= 256);
        self.book.hear(Heard::Other);
        self.check();
    }

    /// An accepted lookup, as a call of the list.
    pub fn lookup(&mut self) {
        let logical_page = self.random.below(self.device.logical_pages);
        self.log.note(("lookup", logical_page));
        assert!(self.world.lookup(logical_page).is_ok());
        self.book.hear(Heard::Other);
    }

    /// An accepted telling why, as a call of the list.
    pub fn why(&mut self) {
        let logical_page = self.random.below(self.device.logical_pages);
        self.log.note(("why", logical_page));
        assert!(self.world.why(logical_page).is_ok());
        self.book.hear(Heard::Other);
    }

    /// An accepted discard of any logical page.
    pub fn discard(&mut self) {
        let logical_page = self.random.below(self.device.logical_pages);
        self.discard_page(logical_page);
    }

    /// Accepted discards of all logical pages.
    pub fn discard_all(&mut self) {
        (0..self.device.logical_pages).for_each(|page| self.discard_page(page));
    }

    fn discard_page(&mut self, logical_page: u32) {
        self.log.note(("discard", logical_page));
        match self.book.last_event(logical_page) {
            None => self.events.discarded_unwritten += 1,
            Some(Event::Discard) => self.events.discarded_again += 1,
            Some(Event::Write(_)) => self.events.discarded += 1,
        }
        let mut marked = self.world.clone();
        marked.state_mut().marks[logical_page as usize] = true;
        assert_eq!(self.world.discard(logical_page), Ok(()));
        assert!(self.world == marked, "a discard changed more than a mark");
        self.book.hear(Heard::Discard(logical_page));
        self.check();
    }

    /// Agreement with an earlier world, which may become the present one.
    pub fn agreement(&mut self) {
        self.log.note("agreement");
        let lookups = |world: &World| -> Vec<Lookup> {
            (0..world.device().logical_pages)
                .map(|page| world.lookup(page).expect("an accepted lookup"))
                .collect()
        };
        let (now, then) = (lookups(&self.world), lookups(&self.earlier));
        let answer = self.world.agreement(&self.earlier);
        assert_eq!(answer, Ok(now == then));
        let same_pages = now
            .iter()
            .map(Lookup::page)
            .eq(then.iter().map(Lookup::page));
        match (now == then, same_pages) {
            (true, _) => self.events.agreed += 1,
            (false, true) => self.events.agreed_in_pages_alone += 1,
            (false, false) => self.events.disagreed += 1,
        }
        self.book.hear(Heard::Other);
        if self.random.once_in(2) {
            self.earlier = self.world.clone();
        }
    }
}
