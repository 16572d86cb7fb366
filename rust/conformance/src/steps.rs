//! Steps of a list of calls, whichever engine makes them.

use hedjosur_model::device::Device;
use hedjosur_model::ops::{Collected, Flushed, Refusal};
use hedjosur_model::testing::{lists, Random};

/// What makes the calls that both engines have and that write.
pub trait Writer {
    /// Flushes a batch; the plan has these contents before.
    fn flush(&mut self, batch: &[u32], plan: &mut [u32]) -> Result<Flushed, Refusal>;
    /// Discards a logical page.
    fn discard(&mut self, logical_page: u32) -> Result<(), Refusal>;
    /// Collects; the lists have these contents before.
    fn collect(&mut self, plan: &mut [u32], erased: &mut [u32]) -> Result<Collected, Refusal>;
}

/// Flushes a batch; where that is refused for want of a free block, a collection and the
/// same flush again, with other calls between.
pub fn flush_by_any_means<W: Writer>(
    writer: &mut W,
    device: &Device,
    batch: &[u32],
    mut between: impl FnMut(&mut W),
) {
    let [mut plan, mut erased] = lists(device);
    if let Err(refusal) = writer.flush(batch, &mut plan) {
        assert_eq!(refusal, Refusal::NoFreeBlock);
        between(writer);
        assert!(writer.collect(&mut plan, &mut erased).is_ok());
        between(writer);
        assert!(writer.flush(batch, &mut plan).is_ok());
    }
}

/// Discards logical pages that follow each other: none, one, a few, or all of a small
/// device.
pub fn discard_some(writer: &mut impl Writer, device: &Device, random: &mut Random) {
    let logical_pages = device.logical_pages;
    let first = random.below(logical_pages);
    let count = random.pick(&[0, 0, 1, 1, 1, 8, 32]);
    for number in 0..logical_pages.min(count) {
        assert_eq!(writer.discard((first + number) % logical_pages), Ok(()));
    }
}
