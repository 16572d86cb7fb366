//! The calls, on both engines or on the learned one alone.

use hedjosur_model::book::Heard;
use hedjosur_model::device::Device;
use hedjosur_model::ops::{self, Collected, Flushed, Refusal};
use hedjosur_model::plain;
use hedjosur_model::testing::{sound_plain_state, World};

use crate::engines::Engines;

/// For a call that is lent no lists.
const NO_LISTS: [Vec<u32>; 2] = [Vec::new(), Vec::new()];

impl Engines<'_> {
    /// A format, which is lent slices of the lengths that its numbers give to each
    /// engine, with any contents.
    pub fn format(&mut self, numbers: [u32; 4]) -> Result<(), Refusal> {
        self.log.note(("format", numbers));
        if let Some(device) = Device::new(numbers) {
            self.lend(device);
        }
        let (answer, _) = self.both(
            NO_LISTS,
            |World { lent, area }, _| ops::format(lent, area, numbers),
            |lent, _| plain::format(lent, numbers),
        );
        let heard = answer.map_or(Heard::Other, |()| Heard::Format(numbers));
        self.hear("format", &answer, heard);
        answer
    }

    /// Other slices, which fit a device and hold anything.
    fn lend(&mut self, device: Device) {
        self.learned = World::unformatted(self.random, &device);
        self.plain = plain::Lent::Held(plain::State {
            numbers: [self.random.below(5); 4],
            ..sound_plain_state(self.random, &device)
        });
        self.device = device;
    }

    /// A flush.
    pub fn flush(&mut self, batch: &[u32], plan: Vec<u32>) -> Result<Flushed, Refusal> {
        self.log.note(("flush", batch, plan.len()));
        let (answer, [plan, _]) = self.both(
            [plan, Vec::new()],
            |World { lent, area }, [plan, _]| ops::flush(lent, area, batch, plan),
            |lent, [plan, _]| plain::flush(lent, batch, plan),
        );
        let heard = answer.map_or(Heard::Other, |flushed| Heard::Flush(batch, flushed, &plan));
        self.hear("flush", &answer, heard);
        answer
    }

    /// A lookup, of which both engines answer the page.
    pub fn lookup(&mut self, logical_page: u32) {
        self.log.note(("lookup", logical_page));
        let (answer, _) = self.both(
            NO_LISTS,
            |world, _| world.lookup(logical_page).map(|answer| answer.page()),
            |lent, _| plain::lookup(lent, logical_page),
        );
        let call = match answer {
            Ok(None) => "lookup of nothing",
            _ => "lookup",
        };
        self.hear(call, &answer, Heard::Other);
    }

    /// A discard.
    pub fn discard(&mut self, logical_page: u32) {
        self.log.note(("discard", logical_page));
        let (answer, _) = self.both(
            NO_LISTS,
            |world, _| world.discard(logical_page),
            |lent, _| plain::discard(lent, logical_page),
        );
        let heard = answer.map_or(Heard::Other, |()| Heard::Discard(logical_page));
        self.hear("discard", &answer, heard);
    }

    /// A collection, with a plan and an erased list.
    pub fn collection(&mut self, lists: [Vec<u32>; 2]) -> Result<Collected, Refusal> {
        let [plan, erased] = &lists;
        self.log.note(("collection", plan.len(), erased.len()));
        let (answer, [plan, erased]) = self.both(
            lists,
            |World { lent, area }, [plan, erased]| ops::collection(lent, area, plan, erased),
            |lent, [plan, erased]| plain::collection(lent, plan, erased),
        );
        let heard = answer.map_or(Heard::Other, |collected| {
            Heard::Collection(collected, &plan, &erased)
        });
        let call = match answer {
            Ok(Collected { count: 0, .. }) => "collection of nothing",
            _ => "collection",
        };
        self.hear(call, &answer, heard);
        answer
    }

    /// An accepted compaction, which the plain engine hasn't.
    pub fn compaction(&mut self) {
        let group = self.random.below(self.device.groups() as u32);
        self.log.note(("compaction", group));
        let answer = ops::compaction(&mut self.learned.lent, group);
        assert!(answer.is_ok());
        self.hear("compaction", &answer, Heard::Other);
    }

    /// An accepted agreement with an earlier state, which the plain engine hasn't. Its
    /// entries tell whether the pages are the same; predicted pages and levels belong
    /// to the learned engine only.
    pub fn agreement(&mut self) {
        self.log.note("agreement");
        let (world, lent) = &self.earlier;
        let answer = self.learned.agreement(world);
        let [now, then] = [&self.plain, lent].map(|lent| &lent.open().expect("a state").1.entries);
        let call = match (answer, now == then) {
            (Ok(true), true) => "agreement",
            (Ok(false), true) => "agreement in pages alone",
            (Ok(false), false) => "disagreement",
            wrong => panic!("agreement and the same entries: {wrong:?}"),
        };
        self.hear(call, &answer, Heard::Other);
        if self.random.once_in(2) {
            self.earlier = (self.learned.clone(), self.plain.clone());
        }
    }
}
