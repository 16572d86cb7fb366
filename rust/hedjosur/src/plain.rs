//! The plain engine: the calls on its one buffer.

use crate::answers::accepted;
use crate::{boundary, Collected, Flushed, Lookup, Numbers, Refusal};

/// A device with the plain engine: its state, owned or borrowed, as a slice, an array or
/// a vector of [`Numbers::plain_state_len`] bytes. Borrowed as `&[u8]` it offers the
/// lookup alone.
///
/// The calls are those of a [`Device`](crate::Device), and from a format they give the
/// same pages, plans, erased lists and refusals. There is no spare area, and no
/// compaction, agreement, listing or telling why.
///
/// ```
/// use hedjosur::{Collected, Numbers, Plain, Refusal};
///
/// // The smallest device, in an array of its own.
/// let numbers = Numbers { blocks: 3, block_pages: 4, logical_pages: 4, error_bound: 0 };
/// let mut device = Plain { state: [0; 38] };
/// device.format(numbers)?;
///
/// // The third flush finds one free block left, which is kept for a collection.
/// let (mut plan, mut erased) = ([0; 4], [0; 3]);
/// device.flush(&[0], &mut plan)?;
/// device.flush(&[0], &mut plan)?;
/// assert_eq!(device.flush(&[0], &mut plan), Err(Refusal::NoFreeBlock));
///
/// // The driver copies page 4 to page 8, then erases blocks 0 and 1.
/// let collected = device.collect(&mut plan, &mut erased)?;
/// assert_eq!(collected, Collected { first_page: 8, count: 1, erased: 2 });
/// assert_eq!((plan[0], &erased[..2]), (4, &[0, 1][..]));
/// assert_eq!(device.lookup(0)?, Some(8));
/// # Ok::<(), Refusal>(())
/// ```
#[derive(Clone, Debug, PartialEq, Eq)]
pub struct Plain<S> {
    /// The state: the device numbers, the blocks' counts and the entries, one for each
    /// logical page.
    pub state: S,
}

impl<S: AsMut<[u8]>> Plain<S> {
    /// Formats the device, whatever its buffer held: no page is written.
    ///
    /// Refuses [`BadNumbers`](Refusal::BadNumbers), then
    /// [`BadLength`](Refusal::BadLength) where the state hasn't exactly the length that
    /// [`Numbers`] gives.
    pub fn format(&mut self, numbers: Numbers) -> Result<(), Refusal> {
        accepted(boundary::plain_format(numbers, self.state.as_mut())).map(drop)
    }

    /// Flushes a batch as [`Device::flush`](crate::Device::flush) does, with the same
    /// plan.
    ///
    /// Refuses, in this order, [`BadNumbers`](Refusal::BadNumbers),
    /// [`BadLength`](Refusal::BadLength), [`NotSound`](Refusal::NotSound) for any entry,
    /// two entries naming one page or a count above B, [`BadBatch`](Refusal::BadBatch),
    /// [`OutOfRange`](Refusal::OutOfRange), and [`NoFreeBlock`](Refusal::NoFreeBlock)
    /// where fewer than two blocks are free; one collection then makes room.
    ///
    /// ```
    /// # use hedjosur::{Flushed, Numbers, Plain};
    /// # let numbers = Numbers { blocks: 9, block_pages: 64, logical_pages: 256, error_bound: 1 };
    /// # let mut device = Plain { state: [0; 1058] };
    /// # device.format(numbers)?;
    /// let mut plan = [0; 64];
    /// let flushed = device.flush(&[82, 75, 82], &mut plan)?;
    /// assert_eq!(flushed, Flushed { first_page: 0, count: 2 });
    /// assert_eq!(plan[..2], [1, 2]);
    /// assert_eq!(device.lookup(82)?, Some(1));
    /// # Ok::<(), hedjosur::Refusal>(())
    /// ```
    pub fn flush(&mut self, batch: &[u32], plan: &mut [u32]) -> Result<Flushed, Refusal> {
        let answer = boundary::plain_flush(self.state.as_mut(), batch, plan);
        accepted(answer).map(Flushed::unpacked)
    }

    /// Discards a logical page, whether it was written or not: from now on a lookup
    /// says 'not written' and a collection leaves its page behind, until a flush writes
    /// it again. Its entry is all that changes.
    ///
    /// Refuses as [`lookup`](Plain::lookup) does.
    ///
    /// ```
    /// # use hedjosur::{Numbers, Plain};
    /// # let numbers = Numbers { blocks: 9, block_pages: 64, logical_pages: 256, error_bound: 1 };
    /// # let mut device = Plain { state: [0; 1058] };
    /// # device.format(numbers)?;
    /// device.flush(&[7, 8], &mut [0; 64])?;
    /// device.discard(7)?;
    /// assert_eq!([device.lookup(7)?, device.lookup(8)?], [None, Some(1)]);
    /// device.flush(&[7], &mut [0; 64])?;
    /// assert_eq!(device.lookup(7)?, Some(64));
    /// # Ok::<(), hedjosur::Refusal>(())
    /// ```
    pub fn discard(&mut self, logical_page: u32) -> Result<(), Refusal> {
        accepted(boundary::plain_discard(self.state.as_mut(), logical_page)).map(drop)
    }

    /// Collects blocks as [`Device::collect`](crate::Device::collect) does, with the
    /// same plan and the same list of erased blocks. A page is valid if an entry names
    /// it.
    ///
    /// Refuses, in this order, [`BadNumbers`](Refusal::BadNumbers),
    /// [`BadLength`](Refusal::BadLength), [`NotSound`](Refusal::NotSound) as
    /// [`flush`](Plain::flush), [`NothingToGain`](Refusal::NothingToGain) and
    /// [`NoFreeBlock`](Refusal::NoFreeBlock).
    pub fn collect(&mut self, plan: &mut [u32], erased: &mut [u32]) -> Result<Collected, Refusal> {
        let answer = boundary::plain_collect(self.state.as_mut(), plan, erased);
        accepted(answer).map(Collected::unpacked)
    }
}

impl<S: AsRef<[u8]>> Plain<S> {
    /// Looks a logical page up: its page, or `None` for 'not written', which a
    /// discarded one is, too.
    ///
    /// Refuses, in this order, [`BadNumbers`](Refusal::BadNumbers),
    /// [`BadLength`](Refusal::BadLength), [`OutOfRange`](Refusal::OutOfRange), and
    /// [`NotSound`](Refusal::NotSound) for the page's own entry.
    pub fn lookup(&self, logical_page: u32) -> Result<Option<u32>, Refusal> {
        let answer = boundary::plain_lookup(self.state.as_ref(), logical_page);
        accepted(answer).map(|answer| Lookup::unpacked(answer).page())
    }
}
