//! An implementation of the plain engine's calls beside the model: answers, refusals
//! and every lent byte have to be equal after every call.

use std::fmt::Debug;
use std::ops::RangeInclusive;

use hedjosur_layout::{encode_plain_state, read_plain_state};
use hedjosur_model::device::Device;
use hedjosur_model::ops::{Collected, Flushed, Refusal};
use hedjosur_model::plain::{self, state_bytes, Lent, State};
use hedjosur_model::testing::CallLog;

use crate::answers::Answers;
use crate::calls::PlainCalls;
use crate::steps::Writer;

/// A state as an implementation of the calls leaves it, beside the model's.
#[derive(Debug)]
pub struct Beside<'a, C> {
    calls: &'a C,
    bytes: Vec<u8>,
    model: Lent,
    log: &'a mut CallLog,
    answers: &'a mut Answers,
}

impl<'a, C: PlainCalls> Beside<'a, C> {
    /// An empty state.
    pub fn new(calls: &'a C, log: &'a mut CallLog, answers: &'a mut Answers) -> Beside<'a, C> {
        Beside {
            calls,
            bytes: Vec::new(),
            model: Lent::Short,
            log,
            answers,
        }
    }

    /// Has the next calls made on this state.
    pub fn lend(&mut self, bytes: Vec<u8>) {
        self.model = read_plain_state(&bytes);
        self.bytes = bytes;
    }

    /// The state.
    pub fn lent(&self) -> Vec<u8> {
        self.bytes.clone()
    }

    /// A call that writes, by the model and by the implementation. A refused one
    /// may not change a byte.
    fn write<T: PartialEq + Debug>(
        &mut self,
        call: &'static str,
        by_model: impl FnOnce(&mut Lent) -> Result<T, Refusal>,
        by_calls: impl FnOnce(&C, &mut [u8]) -> Result<T, Refusal>,
    ) -> Result<T, Refusal> {
        let before = self.bytes.clone();
        let expected = by_model(&mut self.model);
        let answer = by_calls(self.calls, &mut self.bytes);
        assert_eq!(answer, expected);
        let expected = match answer {
            Ok(_) => encode_plain_state(self.model.held_mut()),
            Err(_) => before,
        };
        assert_same(&self.bytes, &expected);
        self.answers.count(call, &answer);
        answer
    }

    /// Formats a device in the present state.
    pub fn format(&mut self, numbers: [u32; 4]) -> Result<(), Refusal> {
        self.log.note(("format", numbers));
        // Which length the state has is told by the numbers that are given, not
        // by those it holds.
        let fitting = Device::new(numbers).filter(|_| state_bytes(numbers) == self.bytes.len());
        let mut lent = fitting.map_or(Lent::Short, |device| {
            Lent::Held(State {
                numbers: [0; 4],
                ..State::formatted(&device)
            })
        });
        self.write(
            "format",
            |model| {
                plain::format(&mut lent, numbers)?;
                *model = lent;
                Ok(())
            },
            |calls, state| calls.format(state, numbers),
        )
    }

    /// Looks a logical page up.
    pub fn lookup(&mut self, logical_page: u32) -> Result<Option<u32>, Refusal> {
        self.lookups(logical_page..=logical_page);
        plain::lookup(&self.model, logical_page)
    }

    /// Looks every logical page up, and the one behind the last.
    pub fn lookup_all(&mut self) {
        let behind = match self.model.open() {
            Ok((device, _)) => device.logical_pages,
            Err(_) => 0,
        };
        self.lookups(0..=behind);
    }

    fn lookups(&mut self, logical_pages: RangeInclusive<u32>) {
        self.log.note(("lookup", &logical_pages));
        let before = self.bytes.clone();
        for logical_page in logical_pages {
            let expected = plain::lookup(&self.model, logical_page);
            let answer = self.calls.lookup(&self.bytes, logical_page);
            assert_eq!(answer, expected, "logical page {logical_page}");
            self.answers.count("lookup", &answer);
        }
        assert_same(&self.bytes, &before);
    }
}

impl<C: PlainCalls> Writer for Beside<'_, C> {
    fn flush(&mut self, batch: &[u32], plan: &mut [u32]) -> Result<Flushed, Refusal> {
        self.log.note(("flush", batch, plan.len()));
        let mut expected = plan.to_vec();
        let answer = self.write(
            "flush",
            |model| plain::flush(model, batch, &mut expected),
            |calls, state| calls.flush(state, batch, plan),
        );
        assert_eq!(plan, expected);
        answer
    }

    fn discard(&mut self, logical_page: u32) -> Result<(), Refusal> {
        self.log.note(("discard", logical_page));
        self.write(
            "discard",
            |model| plain::discard(model, logical_page),
            |calls, state| calls.discard(state, logical_page),
        )
    }

    fn collect(&mut self, plan: &mut [u32], erased: &mut [u32]) -> Result<Collected, Refusal> {
        self.log.note(("collect", plan.len(), erased.len()));
        let mut expected = [plan.to_vec(), erased.to_vec()];
        let [expected_plan, expected_erased] = &mut expected;
        let answer = self.write(
            "collect",
            |model| plain::collection(model, expected_plan, expected_erased),
            |calls, state| calls.collect(state, plan, erased),
        );
        assert_eq!([plan, erased], expected);
        answer
    }
}

/// All bytes are as expected; the first that differs is told.
fn assert_same(bytes: &[u8], expected: &[u8]) {
    assert_eq!(bytes.len(), expected.len());
    let differs = (0..bytes.len()).find(|&at| bytes[at] != expected[at]);
    if let Some(at) = differs.filter(|_| bytes != expected) {
        panic!("byte {at} is {}, not {}", bytes[at], expected[at]);
    }
}
