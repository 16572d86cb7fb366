//! What has to hold after every call.

use hedjosur_model::book::Event;
use hedjosur_model::ops::{Lookup, Refusal};
use hedjosur_model::sound::state_is_sound;

use crate::history::History;
use crate::why::check_told;

impl History<'_> {
    /// Demand 3 for every logical page, and what is told of it; soundness.
    pub fn check(&mut self) {
        let (device, state) = self.world.lent.open().expect("a state");
        assert_eq!(device, self.device);
        assert!(state_is_sound(&device, state));
        let mut unmarked = self.world.clone();
        unmarked.state_mut().marks.fill(false);
        let behind = &state.marks[device.logical_pages as usize..];
        assert!(behind.iter().all(|&bit| !bit));
        for logical_page in 0..device.logical_pages {
            let last = self.book.last_event(logical_page);
            let marked = state.marks[logical_page as usize];
            assert_eq!(marked, last == Some(Event::Discard));
            let answer = self.world.lookup(logical_page).expect("an accepted lookup");
            check_told(self.events, &self.world, logical_page, answer);
            match (answer, last) {
                (Lookup::NotWritten { levels: 0 }, Some(Event::Discard)) => {
                    let by_records = unmarked.lookup(logical_page);
                    let refused = by_records == Err(Refusal::NotNamed);
                    self.events.spared_refusal_7 += usize::from(refused);
                }
                (Lookup::NotWritten { levels }, None) => {
                    assert_eq!(
                        levels,
                        state.groups[logical_page as usize / 256].levels.len()
                    );
                    self.events.not_written += 1;
                }
                (
                    Lookup::Found {
                        page, predicted, ..
                    },
                    Some(Event::Write(write)),
                ) => {
                    assert_eq!(self.book.carried(page), Some(write));
                    match self.book.carried(predicted) == Some(write) {
                        true => {
                            assert_eq!(answer.reads(), 1);
                            self.events.one_read += 1;
                        }
                        false => {
                            assert_eq!(answer.reads(), 2);
                            self.events.two_reads += 1;
                        }
                    }
                }
                wrong => panic!("logical page {logical_page}: {wrong:?}"),
            }
        }
    }
}
