//! Both engines side by side, and what has to hold after every call.

use std::collections::BTreeMap;
use std::fmt::Debug;

use hedjosur_model::book::{Book, Event, Heard};
use hedjosur_model::device::Device;
use hedjosur_model::ops::Refusal;
use hedjosur_model::plain;
use hedjosur_model::testing::{CallLog, Random, World};

/// How often each call came with each answer: 0 where it was accepted, else the
/// refusal.
pub type Tally = BTreeMap<(&'static str, u32), usize>;

/// A list of calls on both engines, the book beside it.
pub struct Engines<'a> {
    /// The device that was formatted last.
    pub device: Device,
    /// The learned engine's state and spare area.
    pub learned: World,
    /// The plain engine's state.
    pub plain: plain::Lent,
    /// Both as they were at some earlier time.
    pub earlier: (World, plain::Lent),
    /// What the book says.
    pub book: Book,
    /// Where choices come from.
    pub random: &'a mut Random,
    /// The calls so far.
    pub log: &'a mut CallLog,
    /// Their answers.
    pub tally: &'a mut Tally,
}

impl<'a> Engines<'a> {
    /// Starts with an accepted format.
    pub fn new(
        device: Device,
        random: &'a mut Random,
        log: &'a mut CallLog,
        tally: &'a mut Tally,
    ) -> Engines<'a> {
        let learned = World::formatted(&device);
        let plain = plain::Lent::Held(plain::State::formatted(&device));
        let mut engines = Engines {
            device,
            earlier: (learned.clone(), plain.clone()),
            learned,
            plain,
            book: Book::default(),
            random,
            log,
            tally,
        };
        assert_eq!(engines.format(device.numbers()), Ok(()));
        engines
    }

    /// One call on both engines, each with these lists: the same answer, and the same
    /// lists after it. A refused call changes nothing.
    pub fn both<T: PartialEq + Debug>(
        &mut self,
        lists: [Vec<u32>; 2],
        on_learned: impl FnOnce(&mut World, &mut [Vec<u32>; 2]) -> Result<T, Refusal>,
        on_plain: impl FnOnce(&mut plain::Lent, &mut [Vec<u32>; 2]) -> Result<T, Refusal>,
    ) -> (Result<T, Refusal>, [Vec<u32>; 2]) {
        let before = (self.learned.clone(), self.plain.clone(), lists.clone());
        let mut others = lists.clone();
        let mut lists = lists;
        let answer = on_learned(&mut self.learned, &mut lists);
        assert_eq!(on_plain(&mut self.plain, &mut others), answer);
        assert_eq!(others, lists);
        if answer.is_err() {
            let (learned, plain, unchanged) = before;
            assert!(self.learned == learned && self.plain == plain && lists == unchanged);
        }
        (answer, lists)
    }

    /// Counts a call, and compares what the book says of it with both engines.
    pub fn hear<T>(&mut self, call: &'static str, answer: &Result<T, Refusal>, heard: Heard) {
        let number = answer.as_ref().err().map_or(0, |refusal| refusal.number());
        *self.tally.entry((call, number)).or_default() += 1;
        self.book.hear(heard);
        for logical_page in 0..self.device.logical_pages {
            self.check(logical_page);
        }
    }

    /// Demand 3 for a logical page in the plain engine, and the same page in both.
    fn check(&self, logical_page: u32) {
        let page = plain::lookup(&self.plain, logical_page).expect("an accepted lookup");
        let learned = self.learned.lookup(logical_page);
        assert_eq!(learned.map(|answer| answer.page()), Ok(page));
        match (page, self.book.last_event(logical_page)) {
            (Some(page), Some(Event::Write(last))) => {
                assert_eq!(self.book.carried(page), Some(last));
            }
            (None, Some(Event::Discard) | None) => {}
            wrong => panic!("logical page {logical_page}: {wrong:?}"),
        }
    }
}
