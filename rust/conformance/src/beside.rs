//! An implementation of the learned engine's calls beside the model: answers, refusals and the
//! contents of every lent slice have to be equal after every call.

use std::fmt::Debug;

use hedjosur::{LISTING_LEN, WHY_LEN};
use hedjosur_layout::{read_state, state_bytes};
use hedjosur_model::device::Device;
use hedjosur_model::ops::{self, Collected, Flushed, Lookup, Refusal};
use hedjosur_model::script::{listed, Answer, Line, Listed};
use hedjosur_model::state::Lent;
use hedjosur_model::testing::{lists, CallLog, Told, World};

use crate::answers::Answers;
use crate::calls::Calls;
use crate::steps::Writer;
use crate::why::{read_entries, Explained};

/// A device as an implementation of the calls leaves it, beside the model's.
#[derive(Debug)]
pub struct Beside<'a, C> {
    calls: &'a C,
    bytes: Vec<u8>,
    area: Vec<u32>,
    model: World,
    log: &'a mut CallLog,
    answers: &'a mut Answers,
}

impl<'a, C: Calls> Beside<'a, C> {
    /// Empty buffers.
    pub fn new(calls: &'a C, log: &'a mut CallLog, answers: &'a mut Answers) -> Beside<'a, C> {
        Beside {
            calls,
            bytes: Vec::new(),
            area: Vec::new(),
            model: World {
                lent: Lent::Short,
                area: Vec::new(),
            },
            log,
            answers,
        }
    }

    /// Has the next calls made on these buffers.
    pub fn lend(&mut self, bytes: Vec<u8>, area: Vec<u32>) {
        self.model = World {
            lent: read_state(&bytes),
            area: area.clone(),
        };
        (self.bytes, self.area) = (bytes, area);
    }

    /// The buffers.
    pub fn lent(&self) -> (Vec<u8>, Vec<u32>) {
        (self.bytes.clone(), self.area.clone())
    }

    /// A call that writes, by the model and by the implementation. A refused one
    /// may not change a byte.
    fn write<T: PartialEq + Debug>(
        &mut self,
        call: &'static str,
        by_model: impl FnOnce(&mut World) -> Result<T, Refusal>,
        by_calls: impl FnOnce(&C, &mut [u8], &mut [u32]) -> Result<T, Refusal>,
    ) -> Result<T, Refusal> {
        let before = self.bytes.clone();
        let expected = by_model(&mut self.model);
        let answer = by_calls(self.calls, &mut self.bytes, &mut self.area);
        assert_eq!(answer, expected);
        assert!(self.area == self.model.area, "the spare area differs");
        match &answer {
            Ok(_) => assert_same(&read_state(&self.bytes), &self.model.lent),
            Err(_) => assert!(self.bytes == before, "a refused call changed the state"),
        }
        self.answers.count(call, &answer);
        answer
    }

    /// A call that only reads.
    fn read<T: PartialEq + Debug>(
        &mut self,
        call: &'static str,
        by_model: impl FnOnce(&World) -> Result<T, Refusal>,
        by_calls: impl FnOnce(&C, &[u8], &[u32]) -> Result<T, Refusal>,
    ) -> Result<T, Refusal> {
        let before = self.bytes.clone();
        let expected = by_model(&self.model);
        let answer = by_calls(self.calls, &self.bytes, &self.area);
        assert_eq!(answer, expected);
        let unchanged = self.bytes == before && self.area == self.model.area;
        assert!(unchanged, "a call that only reads changed something");
        self.answers.count(call, &answer);
        answer
    }

    /// Formats a device in the present buffers.
    pub fn format(&mut self, numbers: [u32; 4]) -> Result<(), Refusal> {
        self.log.note(("format", numbers));
        // Which length the state has is told by the numbers that are given, not
        // by those it holds.
        let fitting = Device::new(numbers).filter(|d| state_bytes(d) == self.bytes.len());
        let mut lent = fitting.map_or(Lent::Short, |device| Lent::fitting(&device));
        self.write(
            "format",
            |model| {
                ops::format(&mut lent, &mut model.area, numbers)?;
                model.lent = lent;
                Ok(())
            },
            |calls, state, area| calls.format(state, area, numbers),
        )
    }

    /// Looks a logical page up.
    pub fn lookup(&mut self, logical_page: u32) -> Result<Lookup, Refusal> {
        self.log.note(("lookup", logical_page));
        self.read(
            "lookup",
            |model| model.lookup(logical_page),
            |calls, state, area| calls.lookup(state, area, logical_page),
        )
    }

    /// Compacts a group.
    pub fn compact(&mut self, group: u32) -> Result<usize, Refusal> {
        self.log.note(("compact", group));
        self.write(
            "compact",
            |model| ops::compaction(&mut model.lent, group),
            |calls, state, _| calls.compact(state, group),
        )
    }

    /// Agreement with another state and its spare area, both ways.
    pub fn agree(&mut self, (bytes, area): (&[u8], &[u32])) -> [Result<bool, Refusal>; 2] {
        self.log.note("agree");
        let lent = &read_state(bytes);
        let one_way = self.read(
            "agree",
            |own| ops::agreement((&own.lent, &own.area), (lent, area)),
            |calls, own, own_area| calls.agree((own, own_area), (bytes, area)),
        );
        let other_way = self.read(
            "agree",
            |own| ops::agreement((lent, area), (&own.lent, &own.area)),
            |calls, own, own_area| calls.agree((bytes, area), (own, own_area)),
        );
        [one_way, other_way]
    }

    /// Lists a group into a buffer of this length; what stands behind the records
    /// stays.
    pub fn list(&mut self, group: u32, length: usize) -> Result<Vec<Listed>, Refusal> {
        self.log.note(("list", group, length));
        let mut out = vec![0xA5; length];
        let mut expected = out.clone();
        let answer = self.read(
            "list",
            |model| {
                model.lent.open()?;
                let fits = length == LISTING_LEN;
                fits.then_some(()).ok_or(Refusal::BadLength)?;
                ops::list(&model.lent, group).map(listed)
            },
            |calls, state, _| calls.list(state, group, &mut out),
        );
        let records = answer.iter().flatten();
        for (&record, bytes) in records.zip(expected.chunks_mut(10)) {
            bytes.copy_from_slice(&listed_bytes(record));
        }
        assert!(out == expected, "the listing's bytes differ");
        answer
    }

    /// Tells why a logical page is found where it is, into a buffer of this length; what
    /// stands behind the entries stays.
    pub fn why(&mut self, logical_page: u32, length: usize) -> Result<Vec<Told>, Refusal> {
        self.log.note(("why", logical_page, length));
        let mut out = vec![0xA5; length];
        let mut expected = out.clone();
        let answer = self.read(
            "why",
            |model| {
                let count = ops::why(&model.lent, logical_page, &mut expected)?;
                Ok(read_entries(&expected, count))
            },
            |calls, state, _| calls.why(state, logical_page, &mut out),
        );
        assert!(out == expected, "the entries' bytes differ");
        answer
    }

    /// Looks a logical page up and tells why; what is told fits the lookup.
    pub fn explain(&mut self, logical_page: u32) -> Explained {
        let lookup = self.lookup(logical_page);
        let told = self.why(logical_page, WHY_LEN);
        let explained = Explained { lookup, told };
        explained.assert_fits();
        explained
    }

    /// Lists every group.
    pub fn list_all(&mut self) {
        let groups = match self.model.lent.open() {
            Ok((device, _)) => device.groups() as u32,
            Err(_) => 1,
        };
        for group in 0..groups {
            let _ = self.list(group, LISTING_LEN);
        }
    }

    /// Makes the call of a script's line, with lists of the right lengths. A format
    /// gets new buffers.
    pub fn call(&mut self, line: &Line) -> Answer {
        self.answer(line).unwrap_or_else(Answer::Refused)
    }

    fn answer(&mut self, line: &Line) -> Result<Answer, Refusal> {
        let [mut plan, mut erased] = match self.model.lent.open() {
            Ok((device, _)) => lists(&device),
            Err(_) => [Vec::new(), Vec::new()],
        };
        Ok(match line {
            Line::Format(numbers) => {
                if let Some(device) = Device::new(*numbers) {
                    let (state, area) = (state_bytes(&device), device.spare_length());
                    self.lend(vec![0xA5; state], vec![7; area]);
                }
                self.format(*numbers)?;
                Answer::Formatted
            }
            Line::Flush(batch) => {
                let flushed = self.flush(batch, &mut plan)?;
                plan.truncate(flushed.count as usize);
                Answer::Flushed(flushed, plan)
            }
            Line::Lookup(logical_page) => Answer::Lookup(self.lookup(*logical_page)?),
            Line::Collection => {
                let collected = self.collect(&mut plan, &mut erased)?;
                plan.truncate(collected.count as usize);
                erased.truncate(collected.erased as usize);
                Answer::Collected(collected, [plan, erased])
            }
            Line::Compaction(group) => Answer::Compacted(self.compact(*group)?),
            Line::List(group) => Answer::Listed(self.list(*group, LISTING_LEN)?),
        })
    }
}

impl<C: Calls> Writer for Beside<'_, C> {
    fn flush(&mut self, batch: &[u32], plan: &mut [u32]) -> Result<Flushed, Refusal> {
        self.log.note(("flush", batch, plan.len()));
        let mut expected = plan.to_vec();
        let answer = self.write(
            "flush",
            |model| ops::flush(&mut model.lent, &mut model.area, batch, &mut expected),
            |calls, state, area| calls.flush(state, area, batch, plan),
        );
        assert_eq!(plan, expected);
        answer
    }

    fn discard(&mut self, logical_page: u32) -> Result<(), Refusal> {
        self.log.note(("discard", logical_page));
        let before = self.bytes.clone();
        let answer = self.write(
            "discard",
            |model| model.discard(logical_page),
            |calls, state, area| calls.discard(state, area, logical_page),
        );
        let bytes = before.iter().zip(&self.bytes);
        let changed = bytes.filter(|(before, after)| before != after).count();
        assert!(changed <= 1, "a discard changed {changed} bytes");
        answer
    }

    fn collect(&mut self, plan: &mut [u32], erased: &mut [u32]) -> Result<Collected, Refusal> {
        self.log.note(("collect", plan.len(), erased.len()));
        let mut expected = [plan.to_vec(), erased.to_vec()];
        let [expected_plan, expected_erased] = &mut expected;
        let answer = self.write(
            "collect",
            |model| {
                let World { lent, area } = model;
                ops::collection(lent, area, expected_plan, expected_erased)
            },
            |calls, state, area| calls.collect(state, area, plan, erased),
        );
        assert_eq!([plan, erased], expected);
        answer
    }
}

/// The state read from the bytes is the model's; the first group that differs is
/// told alone.
fn assert_same(read: &Lent, model: &Lent) {
    if let (Lent::Held(read), Lent::Held(model)) = (read, model) {
        for (number, (read, model)) in read.groups.iter().zip(&model.groups).enumerate() {
            assert_eq!(read, model, "group {number}");
        }
    }
    assert_eq!(read, model);
}

/// A listed record's ten bytes.
fn listed_bytes((level, start, span, word, intercept): Listed) -> [u8; 10] {
    let [w0, w1] = word.to_le_bytes();
    let [i0, i1, i2, i3] = intercept.to_le_bytes();
    let [l0, l1] = (level as u16).to_le_bytes();
    [start, span, w0, w1, i0, i1, i2, i3, l0, l1]
}
