//! What is compared with the model.

mod baseline;
mod exported;
mod proved;

pub use baseline::Baseline;
pub use exported::Exported;
pub use proved::Proved;

use hedjosur_layout::Part;
use hedjosur_model::device::Device;
use hedjosur_probe_sys::Found;

/// An implementation of the inner functions; what each does is the table of
/// [`hedjosur_probe_sys`].
pub trait Subject {
    /// Sorts a batch; answers how many logical pages are left.
    fn sort(&self, batch: &[u32], pages: &mut [u32], sources: &mut [u32]) -> usize;
    /// Learns a sorted batch; answers how many records it gives.
    fn learn(&self, written: &[u32], first: u32, bound: u32, out: &mut [u8]) -> usize;
    /// Writes a block's spare entries in one pass, which stops after so many.
    fn program(&self, device: &Device, area: &mut [u32], block: u32, written: &[u32], stop: usize);
    /// Whether any bytes are a sound group's.
    fn is_sound(&self, part: &Part, logical_pages: u32, number: u32) -> bool;
    /// Finds an offset in a sound group.
    fn find(&self, part: &Part, offset: u8) -> Found;
    /// Inserts a record with its members; answers the records after.
    fn insert(&self, part: &mut Part, record: &[u8; 8], mask: &[u8; 256]) -> usize;
    /// Compacts a group; answers its records left.
    fn compact(&self, part: &mut Part) -> usize;
}
