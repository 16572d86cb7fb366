//! A list of calls and what is known beside it.

use hedjosur_model::book::Book;
use hedjosur_model::device::Device;
use hedjosur_model::testing::{CallLog, Random, World};

use crate::events::Events;

/// A list of calls on one device, the book beside it.
pub struct History<'a> {
    /// The device that was formatted last.
    pub device: Device,
    /// Its state and spare area.
    pub world: World,
    /// The world as it was at some earlier time.
    pub earlier: World,
    /// What the book says.
    pub book: Book,
    /// Where choices come from.
    pub random: &'a mut Random,
    /// The calls so far.
    pub log: &'a mut CallLog,
    /// What happened so far.
    pub events: &'a mut Events,
}

impl<'a> History<'a> {
    /// Starts with an accepted format, whatever the buffers held before.
    pub fn new(
        device: Device,
        random: &'a mut Random,
        log: &'a mut CallLog,
        events: &'a mut Events,
    ) -> History<'a> {
        let mut history = History {
            device,
            earlier: World::formatted(&device),
            world: World::unformatted(random, &device),
            book: Book::default(),
            random,
            log,
            events,
        };
        history.format(device);
        history
    }
}
