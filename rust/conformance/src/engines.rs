//! Both engines of one implementation side by side: 'from a format, the same calls with
//! rightly sized slices give the same pages, plans, erased lists and refusals in both
//! engines'.

use std::fmt::Debug;

use hedjosur::{LISTING_LEN, WHY_LEN};
use hedjosur_layout::{decode_plain_state, state_bytes};
use hedjosur_model::device::Device;
use hedjosur_model::ops::{Collected, Flushed, Refusal};
use hedjosur_model::plain::state_bytes as plain_state_bytes;
use hedjosur_model::testing::{
    any_list, any_logical_page, batch, full_device, lists, multiplier, perhaps_wrong, rounds,
    small_device, CallLog, Random,
};

use crate::answers::Answers;
use crate::calls::{Calls, PlainCalls};
use crate::steps::{discard_some, flush_by_any_means, Writer};
use crate::why::Explained;

/// What is lent to the two engines.
#[derive(Clone, Debug)]
struct Lent {
    learned: Vec<u8>,
    area: Vec<u32>,
    plain: Vec<u8>,
}

impl Lent {
    /// Slices of the lengths that a device gives to each engine, with any contents.
    fn fitting(random: &mut Random, device: &Device) -> Lent {
        let mut bytes = |length| (0..length).map(|_| random.bits() as u8).collect();
        let learned = bytes(state_bytes(device));
        let plain = bytes(plain_state_bytes(device.numbers()));
        let area = (0..device.spare_length()).map(|_| random.bits() as u32);
        Lent {
            learned,
            plain,
            area: area.collect(),
        }
    }
}

/// Both engines of an implementation.
struct Engines<'a, C> {
    calls: &'a C,
    /// The device that was formatted last.
    device: Device,
    lent: Lent,
    /// What was lent at some earlier time, since the format.
    earlier: Lent,
    log: &'a mut CallLog,
    answers: &'a mut Answers,
    met: &'a mut Met,
}

/// What occurred.
#[derive(Debug, Default)]
struct Met {
    /// How many collections had nothing to move.
    emptied: usize,
    /// How many states agreed with an earlier one.
    agreed: usize,
    /// How many didn't, and had the same pages.
    finer: usize,
}

/// Random lists of calls on both engines, with compactions, agreements, listings and
/// tellings of why on the learned one between: at least 60 calls a round. At the end of
/// a list every logical page is looked up in both.
pub fn check_engines(calls: &(impl Calls + PlainCalls), base: u64) {
    let mut counts = (Answers::default(), Met::default());
    rounds(base, &mut counts, |random, log, (answers, met)| {
        let device = any_device(random);
        let lent = Lent::fitting(random, &device);
        let engines = &mut Engines {
            calls,
            device,
            earlier: lent.clone(),
            lent,
            log,
            answers,
            met,
        };
        engines.format(device, random);
        for _ in 0..40 {
            engines.step(random);
        }
        engines.compare();
    });
    let (answers, met) = counts;
    let all = met.emptied > 0 && met.agreed > 0 && met.finer > 0;
    assert!(all, "{met:?}");
    // From a format, 3 and 7 never occur, nor does 6 in a collection.
    assert_eq!(answers.met("format"), [0, 1]);
    assert_eq!(answers.met("flush"), [0, 2, 4, 5, 6]);
    assert_eq!(answers.met("lookup"), [0, 4]);
    assert_eq!(answers.met("discard"), [0, 4]);
    assert_eq!(answers.met("why"), [0, 4]);
    assert_eq!(answers.met("collect"), [0, 2, 8]);
    for alone in ["compact", "agree", "list"] {
        assert_eq!(answers.met(alone), [0]);
    }
    answers.tell("both engines", 60 * (base * multiplier()) as usize);
}

/// Mostly a small device, else one with several groups or large blocks.
fn any_device(random: &mut Random) -> Device {
    let bound = random.below(16);
    match random.below(12) {
        0 => full_device(random.between(4, 17), 64, bound),
        1 => full_device(random.between(130, 150), 4, bound),
        2 => full_device(random.between(3, 6), 256, bound),
        _ => small_device(random),
    }
}

impl<C: Calls + PlainCalls> Engines<'_, C> {
    /// A call on both engines, which give the same answer; counted.
    fn both<T: PartialEq + Debug>(
        &mut self,
        call: &'static str,
        on_learned: impl FnOnce(&C, &mut [u8], &mut [u32]) -> Result<T, Refusal>,
        on_plain: impl FnOnce(&C, &mut [u8]) -> Result<T, Refusal>,
    ) -> Result<T, Refusal> {
        let Lent {
            learned,
            area,
            plain,
        } = &mut self.lent;
        let answer = on_learned(self.calls, learned, area);
        let of_plain = on_plain(self.calls, plain);
        assert_eq!(
            of_plain, answer,
            "{call}: the plain engine's, the learned one's"
        );
        self.answers.count(call, &answer);
        answer
    }

    /// An accepted format of a device, in slices for it.
    fn format(&mut self, device: Device, random: &mut Random) {
        self.lent = Lent::fitting(random, &device);
        assert_eq!(self.formatted(device.numbers()), Ok(()));
        self.earlier = self.lent.clone();
        self.device = device;
    }

    fn formatted(&mut self, numbers: [u32; 4]) -> Result<(), Refusal> {
        self.log.note(("format", numbers));
        self.both(
            "format",
            |calls, state, area| Calls::format(calls, state, area, numbers),
            |calls, state| PlainCalls::format(calls, state, numbers),
        )
    }

    /// A lookup, of which both engines answer the page.
    fn lookup(&mut self, logical_page: u32) {
        self.log.note(("lookup", logical_page));
        let _ = self.both(
            "lookup",
            |calls, state, area| {
                let answer = Calls::lookup(calls, state, area, logical_page);
                answer.map(|lookup| lookup.page())
            },
            |calls, state| PlainCalls::lookup(calls, state, logical_page),
        );
    }

    /// Every logical page has the same page in both engines; not counted.
    fn compare(&self) {
        let Lent {
            learned,
            area,
            plain,
        } = &self.lent;
        for logical_page in 0..self.device.logical_pages {
            let lookup = Calls::lookup(self.calls, learned, area, logical_page);
            let page = PlainCalls::lookup(self.calls, plain, logical_page);
            let expected = lookup.map(|lookup| lookup.page());
            assert_eq!(page, expected, "logical page {logical_page}");
        }
    }

    /// One random call, or a few that belong together.
    fn step(&mut self, random: &mut Random) {
        let device = self.device;
        let mut plan = any_list(random, device.block_pages.into());
        match random.below(40) {
            0 => {
                self.compare();
                self.format(small_device(random), random);
            }
            1..=14 => flush_by_any_means(self, &device, &batch(random, &device), |engines| {
                for _ in 0..random.below(4) {
                    engines.between(random);
                }
            }),
            15..=19 => {
                let pages = batch(random, &device);
                let (block_pages, logical_pages) = (device.block_pages, device.logical_pages);
                let pages = perhaps_wrong(random, pages, block_pages, logical_pages);
                let _ = self.flush(&pages, &mut plan);
            }
            20..=24 => {
                let mut erased = any_list(random, device.blocks.into());
                let _ = self.collect(&mut plan, &mut erased);
            }
            _ => self.between(random),
        }
    }

    /// A call that may come between a refused flush and its repeat.
    fn between(&mut self, random: &mut Random) {
        let device = self.device;
        let logical_page = any_logical_page(random, device.logical_pages.into());
        let group = random.below(device.groups() as u32);
        match random.below(13) {
            0..=3 => self.lookup(logical_page),
            4 | 5 => drop(self.discard(logical_page)),
            6 => discard_some(self, &device, random),
            7 => self.compact(group),
            8 => self.agree(random),
            9 => self.list(group),
            10 => self.why(logical_page),
            _ => self.refused(random),
        }
    }

    /// A call that is refused for its arguments.
    fn refused(&mut self, random: &mut Random) {
        let [mut plan, mut erased] = lists(&self.device);
        let refusal = match random.below(4) {
            0 => self.flush(&[], &mut plan).err(),
            1 => self.flush(&[0], &mut plan[1..]).err(),
            2 => self.collect(&mut plan, &mut erased[1..]).err(),
            _ => {
                let mut numbers = self.device.numbers();
                let (number, outside) = random.pick(&[(0, 2), (1, 3), (2, 0), (3, 16)]);
                numbers[number] = outside;
                self.formatted(numbers).err()
            }
        };
        assert!(refusal.is_some());
    }

    /// A compaction, which the plain engine hasn't.
    fn compact(&mut self, group: u32) {
        self.log.note(("compact", group));
        let answer = self.calls.compact(&mut self.lent.learned, group);
        assert!(answer.is_ok());
        self.answers.count("compact", &answer);
    }

    /// An agreement with an earlier state, which the plain engine hasn't; lookups tell
    /// the answer. Where it is yes, the plain engine's entries are the same too.
    fn agree(&mut self, random: &mut Random) {
        self.log.note("agree");
        let states = [&self.lent, &self.earlier];
        let [one, other] = states.map(|lent| (&lent.learned[..], &lent.area[..]));
        let answer = self.calls.agree(one, other);
        let agreed = (0..self.device.logical_pages).all(|page| {
            let [one, other] =
                [one, other].map(|(state, area)| Calls::lookup(self.calls, state, area, page));
            one == other
        });
        assert_eq!(answer, Ok(agreed));
        let [now, then] = states.map(|lent| decode_plain_state(&lent.plain).entries);
        assert!(now == then || !agreed, "the plain engine's entries differ");
        self.met.agreed += usize::from(agreed);
        self.met.finer += usize::from(now == then && !agreed);
        self.answers.count("agree", &answer);
        if random.once_in(2) {
            self.earlier = self.lent.clone();
        }
    }

    /// A listing, which the plain engine hasn't.
    fn list(&mut self, group: u32) {
        self.log.note(("list", group));
        let out = &mut [0; LISTING_LEN];
        let answer = self.calls.list(&self.lent.learned, group, out);
        assert!(answer.is_ok());
        self.answers.count("list", &answer);
    }

    /// A telling of why, which the plain engine hasn't; a lookup tells whether it fits.
    fn why(&mut self, logical_page: u32) {
        self.log.note(("why", logical_page));
        let Lent { learned, area, .. } = &self.lent;
        let out = &mut [0; WHY_LEN];
        let explained = Explained {
            lookup: Calls::lookup(self.calls, learned, area, logical_page),
            told: self.calls.why(learned, logical_page, out),
        };
        explained.assert_fits();
        self.answers.count("why", &explained.told);
    }
}

impl<C: Calls + PlainCalls> Writer for Engines<'_, C> {
    fn flush(&mut self, batch: &[u32], plan: &mut [u32]) -> Result<Flushed, Refusal> {
        self.log.note(("flush", batch, plan.len()));
        let mut other = plan.to_vec();
        let answer = self.both(
            "flush",
            |calls, state, area| Calls::flush(calls, state, area, batch, plan),
            |calls, state| PlainCalls::flush(calls, state, batch, &mut other),
        );
        assert_eq!(other, plan);
        answer
    }

    fn discard(&mut self, logical_page: u32) -> Result<(), Refusal> {
        self.log.note(("discard", logical_page));
        self.both(
            "discard",
            |calls, state, area| Calls::discard(calls, state, area, logical_page),
            |calls, state| PlainCalls::discard(calls, state, logical_page),
        )
    }

    fn collect(&mut self, plan: &mut [u32], erased: &mut [u32]) -> Result<Collected, Refusal> {
        self.log.note(("collect", plan.len(), erased.len()));
        let mut others = [plan.to_vec(), erased.to_vec()];
        let [other_plan, other_erased] = &mut others;
        let answer = self.both(
            "collect",
            |calls, state, area| Calls::collect(calls, state, area, plan, erased),
            |calls, state| PlainCalls::collect(calls, state, other_plan, other_erased),
        );
        assert_eq!(others, [plan, erased]);
        self.met.emptied += usize::from(answer.is_ok_and(|collected| collected.count == 0));
        answer
    }
}
