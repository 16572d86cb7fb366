//! The proved inner functions.

use hedjosur_layout::Part;
use hedjosur_model::device::Device;
use hedjosur_probe_sys::{self as probe, Found};

use super::Subject;

/// The proved inner functions, through the crate `hedjosur-probe-sys`.
#[derive(Clone, Copy, Debug)]
pub struct Proved;

impl Subject for Proved {
    fn sort(&self, batch: &[u32], pages: &mut [u32], sources: &mut [u32]) -> usize {
        probe::sort(batch, pages, sources)
    }

    fn learn(&self, written: &[u32], first: u32, bound: u32, out: &mut [u8]) -> usize {
        probe::learn(written, first, bound, out)
    }

    fn program(&self, device: &Device, area: &mut [u32], block: u32, written: &[u32], stop: usize) {
        probe::program(device.numbers(), area, written, block, stop as u32);
    }

    fn is_sound(&self, part: &Part, logical_pages: u32, number: u32) -> bool {
        probe::sound(part, logical_pages, number)
    }

    fn find(&self, part: &Part, offset: u8) -> Found {
        probe::find(part, offset)
    }

    fn insert(&self, part: &mut Part, record: &[u8; 8], mask: &[u8; 256]) -> usize {
        probe::insert(part, record, mask)
    }

    fn compact(&self, part: &mut Part) -> usize {
        probe::compact(part)
    }
}
