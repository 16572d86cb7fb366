//! The baseline; no other file of this crate knows it.

use hedjosur_baseline::learn::learn;
use hedjosur_baseline::record::Record;
use hedjosur_baseline::sort::sort_batch;
use hedjosur_baseline::{device, group, plain};
use hedjosur_layout::{state_bytes, Part, SLOT_BYTES};
use hedjosur_model::device::Device;
use hedjosur_model::ops::{Collected, Flushed, Lookup, Refusal};
use hedjosur_model::plain::state_bytes as plain_state_bytes;
use hedjosur_model::script::Listed;
use hedjosur_model::testing::Told;
use hedjosur_probe_sys::Found;

use super::Subject;
use crate::calls::{Calls, PlainCalls};
use crate::why::read_entries;

/// The baseline.
#[derive(Clone, Copy, Debug)]
pub struct Baseline;

impl Subject for Baseline {
    fn sort(&self, batch: &[u32], pages: &mut [u32], sources: &mut [u32]) -> usize {
        sort_batch(batch, pages, sources)
    }

    fn learn(&self, written: &[u32], first: u32, bound: u32, out: &mut [u8]) -> usize {
        learn(written, first, bound, out)
    }

    fn program(&self, device: &Device, area: &mut [u32], block: u32, written: &[u32], stop: usize) {
        assert_eq!(
            stop,
            device.entries_per_block(),
            "it always writes all entries"
        );
        device::program_block(device.numbers(), area, block as usize, written);
    }

    fn is_sound(&self, part: &Part, logical_pages: u32, number: u32) -> bool {
        group::sound(part, logical_pages, number)
    }

    fn find(&self, part: &Part, offset: u8) -> Found {
        let group::Found { record, levels } = group::find(part, offset);
        Found {
            record: record.map(|record| (record.start, record.word)),
            levels,
        }
    }

    fn insert(&self, part: &mut Part, record: &[u8; 8], mask: &[u8; 256]) -> usize {
        let record = Record::from_bytes(*record);
        let members = record.members_by(mask).expect("the record's members");
        group::insert(part, record, members);
        group::records(part)
    }

    fn compact(&self, part: &mut Part) -> usize {
        group::compact(part)
    }
}

impl Calls for Baseline {
    fn lengths(&self, numbers: [u32; 4]) -> Option<[usize; 2]> {
        let device = Device::new(numbers)?;
        Some([state_bytes(&device), device.spare_length()])
    }

    fn format(&self, state: &mut [u8], area: &mut [u32], numbers: [u32; 4]) -> Result<(), Refusal> {
        device::format(state, area, numbers)
    }

    fn flush(
        &self,
        state: &mut [u8],
        area: &mut [u32],
        batch: &[u32],
        plan: &mut [u32],
    ) -> Result<Flushed, Refusal> {
        device::flush(state, area, batch, plan)
    }

    fn lookup(&self, state: &[u8], area: &[u32], logical_page: u32) -> Result<Lookup, Refusal> {
        device::lookup(state, area, logical_page)
    }

    fn discard(&self, state: &mut [u8], area: &[u32], logical_page: u32) -> Result<(), Refusal> {
        device::discard(state, area, logical_page)
    }

    fn collect(
        &self,
        state: &mut [u8],
        area: &mut [u32],
        plan: &mut [u32],
        erased: &mut [u32],
    ) -> Result<Collected, Refusal> {
        device::collect(state, area, plan, erased)
    }

    fn compact(&self, state: &mut [u8], group: u32) -> Result<usize, Refusal> {
        device::compact(state, group)
    }

    fn agree(&self, one: (&[u8], &[u32]), other: (&[u8], &[u32])) -> Result<bool, Refusal> {
        device::agree(one, other)
    }

    fn list(&self, state: &[u8], group: u32, out: &mut [u8]) -> Result<Vec<Listed>, Refusal> {
        let count = device::list(state, group, out)?;
        let (slots, _) = out.as_chunks::<SLOT_BYTES>();
        let records = slots[..count]
            .iter()
            .map(|&[s, l, w0, w1, i0, i1, i2, i3, l0, l1]| {
                let record = Record::from_bytes([s, l, w0, w1, i0, i1, i2, i3]);
                let level = u16::from_le_bytes([l0, l1]).into();
                (level, s, l, record.word, record.intercept)
            });
        Ok(records.collect())
    }

    fn why(&self, state: &[u8], logical_page: u32, out: &mut [u8]) -> Result<Vec<Told>, Refusal> {
        let count = device::why(state, logical_page, out)?;
        Ok(read_entries(out, count))
    }
}

impl PlainCalls for Baseline {
    fn length(&self, numbers: [u32; 4]) -> Option<usize> {
        Some(plain_state_bytes(numbers)).filter(|&length| length > 0)
    }

    fn format(&self, state: &mut [u8], numbers: [u32; 4]) -> Result<(), Refusal> {
        plain::format(state, numbers)
    }

    fn flush(&self, state: &mut [u8], batch: &[u32], plan: &mut [u32]) -> Result<Flushed, Refusal> {
        plain::flush(state, batch, plan)
    }

    fn lookup(&self, state: &[u8], logical_page: u32) -> Result<Option<u32>, Refusal> {
        plain::lookup(state, logical_page)
    }

    fn discard(&self, state: &mut [u8], logical_page: u32) -> Result<(), Refusal> {
        plain::discard(state, logical_page)
    }

    fn collect(
        &self,
        state: &mut [u8],
        plan: &mut [u32],
        erased: &mut [u32],
    ) -> Result<Collected, Refusal> {
        plain::collect(state, plan, erased)
    }
}
