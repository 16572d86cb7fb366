//! A state with its spare area, and calls on both.

use super::{any_area, batch, lists, sound_state, Random};
use crate::device::Device;
use crate::ops::{self, Collected, Flushed, Lookup, Refusal, ENTRY_BYTES, WHY_ENTRIES};
use crate::record::{Kind, Record};
use crate::state::{Lent, State};

/// A state and its spare area.
#[derive(Clone, Debug, PartialEq, Eq)]
pub struct World {
    /// The state slice.
    pub lent: Lent,
    /// The spare area.
    pub area: Vec<u32>,
}

impl World {
    /// Slices that fit a device and hold anything, not formatted yet.
    pub fn unformatted(random: &mut Random, device: &Device) -> World {
        World {
            lent: Lent::Held(State {
                numbers: [random.below(5); 4],
                ..sound_state(random, device)
            }),
            area: any_area(random, device),
        }
    }

    /// A newly formatted device.
    pub fn formatted(device: &Device) -> World {
        let mut lent = Lent::fitting(device);
        let mut area = vec![0; device.spare_length()];
        ops::format(&mut lent, &mut area, device.numbers()).expect("an accepted format");
        World { lent, area }
    }

    /// A device of M, B, N and g with these flushes behind it, all accepted.
    pub fn flushed(numbers: [u32; 4], batches: &[&[u32]]) -> World {
        let mut world = World::formatted(&Device::new(numbers).expect("a device"));
        for batch in batches {
            world.flush(batch).expect("an accepted flush");
        }
        world
    }

    /// A device after some accepted flushes, collections and discards.
    pub fn lived_in(random: &mut Random, device: &Device) -> World {
        let mut world = World::formatted(device);
        for _ in 0..random.below(3 * device.blocks.min(8)) {
            let batch = batch(random, device);
            if world.flush(&batch).is_err() || random.once_in(6) {
                // Refused 8 now and then, which is no harm here.
                let _ = world.collection();
            }
            if random.once_in(3) {
                let discarded = world.discard(random.below(device.logical_pages));
                discarded.expect("an accepted discard");
            }
        }
        world
    }

    /// The device, of a state that refuses neither 1 nor 2.
    pub fn device(&self) -> Device {
        self.lent.open().expect("a device").0
    }

    /// The contents, of a state that is long enough to hold its numbers.
    pub fn state_mut(&mut self) -> &mut State {
        self.lent.held_mut()
    }

    /// The same with all groups compacted.
    pub fn compacted(&self) -> World {
        let mut world = self.clone();
        for group in 0..world.device().groups() as u32 {
            ops::compaction(&mut world.lent, group).expect("an accepted compaction");
        }
        world
    }

    /// Makes a group unsound: a single with a span.
    pub fn make_unsound(&mut self, group: usize) {
        let wrong = Record::exact(0, 1, Kind::Single, 0);
        self.state_mut().groups[group].levels.push(vec![wrong]);
    }

    /// A flush whose plan is thrown away.
    pub fn flush(&mut self, batch: &[u32]) -> Result<Flushed, Refusal> {
        let [mut plan, _] = lists(&self.device());
        ops::flush(&mut self.lent, &mut self.area, batch, &mut plan)
    }

    /// An accepted flush, after a collection where it is refused 6.
    pub fn flush_by_any_means(&mut self, batch: &[u32]) {
        if self.flush(batch) == Err(Refusal::NoFreeBlock) {
            self.collection().expect("an accepted collection");
            self.flush(batch).expect("an accepted flush");
        }
    }

    /// A collection whose plan and erased list are thrown away.
    pub fn collection(&mut self) -> Result<Collected, Refusal> {
        let [mut plan, mut erased] = lists(&self.device());
        ops::collection(&mut self.lent, &mut self.area, &mut plan, &mut erased)
    }

    /// A discard.
    pub fn discard(&mut self, logical_page: u32) -> Result<(), Refusal> {
        ops::discard(&mut self.lent, &self.area, logical_page)
    }

    /// A lookup.
    pub fn lookup(&self, logical_page: u32) -> Result<Lookup, Refusal> {
        ops::lookup(&self.lent, &self.area, logical_page)
    }

    /// A telling why: the entries listed, in a buffer whose later bytes stay.
    pub fn why(&self, logical_page: u32) -> Result<Vec<[u8; ENTRY_BYTES]>, Refusal> {
        let lent = [0xA5; ENTRY_BYTES];
        let mut out = lent.repeat(WHY_ENTRIES);
        let listed = ops::why(&self.lent, logical_page, &mut out)?;
        let (entries, _) = out.as_chunks();
        let (entries, later) = entries.split_at(listed);
        assert!(later.iter().all(|entry| *entry == lent));
        Ok(entries.to_vec())
    }

    /// Agreement with another state and its spare area.
    pub fn agreement(&self, other: &World) -> Result<bool, Refusal> {
        ops::agreement((&self.lent, &self.area), (&other.lent, &other.area))
    }
}
