//! The book: 'fed the calls' arguments and answers, plan and erased list
//! included, and nothing from state or spare area'.

use crate::ops::{Collected, Flushed};

/// A write: 'a call's place in the list and an arrival index'.
#[derive(Clone, Copy, Debug, PartialEq, Eq)]
pub struct Write {
    /// The call's place in the list.
    pub call: usize,
    /// The arrival index in that call's batch.
    pub arrival: u32,
}

/// What happened to a logical page.
#[derive(Clone, Copy, Debug, PartialEq, Eq)]
pub enum Event {
    /// It was written.
    Write(Write),
    /// It was discarded.
    Discard,
}

/// A call as the book hears of it.
#[derive(Clone, Copy, Debug)]
pub enum Heard<'a> {
    /// An accepted format of M, B, N and g.
    Format([u32; 4]),
    /// An accepted flush: the batch, the answer and the plan.
    Flush(&'a [u32], Flushed, &'a [u32]),
    /// An accepted discard of a logical page.
    Discard(u32),
    /// An accepted collection: the answer, the plan and the erased list.
    Collection(Collected, &'a [u32], &'a [u32]),
    /// 'Any other call, or a refused one: no change.'
    Other,
}

/// 'For each page it holds what the page carries', and for each logical page
/// its last event.
#[derive(Clone, Debug, Default)]
pub struct Book {
    calls: usize,
    block_pages: usize,
    carried: Vec<Option<Write>>,
    last: Vec<Option<Event>>,
}

impl Book {
    /// What a page carries.
    pub fn carried(&self, page: u32) -> Option<Write> {
        self.carried[page as usize]
    }

    /// 'The last write to a logical page is its latest arrival in an accepted
    /// flush since the last accepted format'; it 'now means the later of write and
    /// discard'.
    pub fn last_event(&self, logical_page: u32) -> Option<Event> {
        self.last[logical_page as usize]
    }

    /// Hears of the next call in the list.
    pub fn hear(&mut self, call: Heard) {
        match call {
            Heard::Format(numbers) => self.format(numbers),
            Heard::Flush(batch, answer, plan) => self.flush(batch, answer, plan),
            Heard::Discard(logical_page) => self.discard(logical_page),
            Heard::Collection(answer, plan, erased) => self.collection(answer, plan, erased),
            Heard::Other => {}
        }
        self.calls += 1;
    }

    /// 'Accepted format: all pages carry nothing.'
    fn format(&mut self, [blocks, block_pages, logical_pages, _]: [u32; 4]) {
        self.block_pages = block_pages as usize;
        self.carried = vec![None; blocks as usize * self.block_pages];
        self.last = vec![None; logical_pages as usize];
    }

    /// 'Accepted flush: page p + i (p the first page, i below the count) carries
    /// this call's write with arrival index plan entry i.'
    fn flush(&mut self, batch: &[u32], answer: Flushed, plan: &[u32]) {
        let call = self.calls;
        let plan = &plan[..answer.count as usize];
        for (page, &arrival) in (answer.first as usize..).zip(plan) {
            self.carried[page] = Some(Write { call, arrival });
        }
        for (arrival, &logical_page) in (0..).zip(batch) {
            self.last[logical_page as usize] = Some(Event::Write(Write { call, arrival }));
        }
    }

    /// Accepted discard: each page carries what it carried.
    fn discard(&mut self, logical_page: u32) {
        self.last[logical_page as usize] = Some(Event::Discard);
    }

    /// 'Accepted collection: page p + i carries what the page in plan entry i
    /// carried before; then the pages of the erased blocks listed carry nothing.'
    fn collection(&mut self, answer: Collected, plan: &[u32], erased: &[u32]) {
        let before = self.carried.clone();
        let plan = &plan[..answer.count as usize];
        for (page, &source) in (answer.first as usize..).zip(plan) {
            self.carried[page] = before[source as usize];
        }
        for &block in &erased[..answer.erased as usize] {
            self.carried[block as usize * self.block_pages..][..self.block_pages].fill(None);
        }
    }
}
