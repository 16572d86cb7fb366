//! The largest device, for which the model takes too long: what each call gives is
//! written out.

use hedjosur_layout::encode_plain_state;
use hedjosur_model::device::Device;
use hedjosur_model::ops::{Collected, Flushed, Refusal};
use hedjosur_model::plain::{State, NOT_WRITTEN};
use hedjosur_model::testing::{full_device, lists};

use crate::answers::Answers;
use crate::calls::PlainCalls;

/// The blocks that all logical pages are put on, one after the other.
const FULL: u32 = 2048;

/// The state of the largest device, beside what it has to be.
struct Largest<'a, C> {
    calls: &'a C,
    device: Device,
    bytes: Vec<u8>,
    expected: State,
    answers: Answers,
}

/// The largest device: a format, flushes until every logical page is written, and more
/// until one block is left free; discards, a collection, and a flush after it. Every
/// logical page is looked up now and then.
pub fn check_largest_device(calls: &impl PlainCalls) {
    let device = full_device(4096, 256, 15);
    let [n, last] = [device.logical_pages, device.logical_pages - 1];
    let expected = State::formatted(&device);
    let mut largest = Largest {
        calls,
        device,
        bytes: vec![0xA5; encode_plain_state(&expected).len()],
        expected,
        answers: Answers::default(),
    };
    let formatted = calls.format(&mut largest.bytes, device.numbers());
    assert_eq!(formatted, Ok(()));
    largest.compare("format", &formatted);
    largest.lookup_all();

    // Block k gets the logical pages whose remainder by 2,048 is k, most of them
    // without a call.
    let of = |k| (k..n).step_by(FULL as usize).collect::<Vec<u32>>();
    let lent = 100..FULL - 50;
    for block in 0..FULL {
        match lent.contains(&block) {
            true => largest.enter(block, &of(block)),
            false => largest.flush(block, &of(block)),
        }
        if block == lent.end - 1 {
            largest.lend();
        }
    }
    largest.lookup_all();

    // Three pages of block 5 stay valid, and seven of block 9; the blocks behind these
    // two flushes hold nothing valid.
    largest.flush(2048, &of(5)[3..]);
    largest.flush(2049, &of(9)[7..]);
    largest.expected.counts[2050..4094].fill(256);
    largest.lend();
    largest.flush(4094, &[last]);
    largest.refused_flush();
    for logical_page in [5, 0] {
        let bytes = &mut largest.bytes;
        let discarded = calls.discard(bytes, logical_page);
        assert_eq!(discarded, Ok(()));
        largest.expected.entries[logical_page as usize] = NOT_WRITTEN;
        largest.compare("discard", &discarded);
    }
    // By valid pages: none, 1, 2, 7. With block 2049, which has 249, they are too many.
    let taken: Vec<u32> = (2050..=4094).chain([5, 9]).collect();
    let moved = [9, 2053, 2057, 4101, 4105, 6153, 8201, 10_249, 12_297, last];
    largest.collect(4095, &moved, &taken);
    largest.lookup_all();
    largest.flush(5, &[0, last]);
    largest.lookup_all();
    largest.answers.tell("plain: the largest device", 2_000_000);
}

impl<C: PlainCalls> Largest<'_, C> {
    /// Lends the expected state.
    fn lend(&mut self) {
        self.bytes = encode_plain_state(&self.expected);
    }

    /// Every byte is as expected after a call, which is counted.
    fn compare<T>(&mut self, call: &'static str, answer: &Result<T, Refusal>) {
        let same = self.bytes == encode_plain_state(&self.expected);
        assert!(same, "the state differs after a {call}");
        self.answers.count(call, answer);
    }

    /// Expects sorted logical pages on a free block.
    fn enter(&mut self, block: u32, sorted: &[u32]) {
        self.expected.counts[block as usize] = sorted.len() as u32;
        for (&logical_page, page) in sorted.iter().zip(self.device.pages_of_block(block)) {
            self.expected.entries[logical_page as usize] = page;
        }
    }

    /// Flushes sorted logical pages, the last first, to this block.
    fn flush(&mut self, block: u32, sorted: &[u32]) {
        let [mut plan, _] = lists(&self.device);
        let mut expected = plan.clone();
        for (place, arrival) in (0..sorted.len()).rev().enumerate() {
            expected[place] = arrival as u32;
        }
        let batch: Vec<u32> = sorted.iter().rev().copied().collect();
        let answer = self.calls.flush(&mut self.bytes, &batch, &mut plan);
        let first = self.device.pages_of_block(block).start;
        let count = sorted.len() as u32;
        assert_eq!(answer, Ok(Flushed { first, count }));
        assert_eq!(plan, expected);
        self.enter(block, sorted);
        self.compare("flush", &answer);
    }

    /// A flush that finds one free block.
    fn refused_flush(&mut self) {
        let [mut plan, _] = lists(&self.device);
        let answer = self.calls.flush(&mut self.bytes, &[0], &mut plan);
        assert_eq!(answer, Err(Refusal::NoFreeBlock));
        assert_eq!([plan], lists(&self.device)[..1]);
        self.compare("flush", &answer);
    }

    /// Collects these blocks, and moves these logical pages to a block.
    fn collect(&mut self, block: u32, moved: &[u32], taken: &[u32]) {
        let [mut plan, mut erased] = lists(&self.device);
        let mut expected = lists(&self.device);
        for (place, &logical_page) in moved.iter().enumerate() {
            expected[0][place] = self.expected.entries[logical_page as usize];
        }
        expected[1][..taken.len()].copy_from_slice(taken);
        let bytes = &mut self.bytes;
        let answer = self.calls.collect(bytes, &mut plan, &mut erased);
        let collected = Collected {
            first: self.device.pages_of_block(block).start,
            count: moved.len() as u32,
            erased: taken.len() as u32,
        };
        assert_eq!(answer, Ok(collected));
        assert_eq!([plan, erased], expected);
        self.enter(block, moved);
        for &block in taken {
            self.expected.counts[block as usize] = 0;
        }
        self.compare("collect", &answer);
    }

    /// Looks every logical page up, and the one behind the last.
    fn lookup_all(&mut self) {
        for (logical_page, &entry) in (0..).zip(&self.expected.entries) {
            let answer = self.calls.lookup(&self.bytes, logical_page);
            let page = Some(entry).filter(|&page| page != NOT_WRITTEN);
            assert_eq!(answer, Ok(page), "logical page {logical_page}");
            self.answers.count("lookup", &answer);
        }
        let behind = self.device.logical_pages;
        let answer = self.calls.lookup(&self.bytes, behind);
        assert_eq!(answer, Err(Refusal::OutOfRange));
        self.compare("lookup", &answer);
    }
}
