//! The learned engine: the calls on a device's two buffers.

use crate::answers::accepted;
use crate::{boundary, Collected, Flushed, Listing, Lookup, Numbers, Refusal, Why};

/// A device with the learned engine: its state and its spare area, owned or borrowed,
/// as slices, arrays or vectors. Each call checks the buffers it needs, so a device can be put
/// together from any two. With both borrowed as `&[u8]` and `&[u32]` it offers
/// the calls that only read.
///
/// ```
/// use hedjosur::{Collected, Device, Numbers, Refusal};
///
/// // The smallest device, in arrays of its own.
/// let numbers = Numbers { blocks: 3, block_pages: 4, logical_pages: 4, error_bound: 0 };
/// let mut device = Device { state: [0; 5659], spare: [0; 12] };
/// device.format(numbers)?;
///
/// // The third flush finds one free block left, which is kept for a collection.
/// let (mut plan, mut erased) = ([0; 4], [0; 3]);
/// device.flush(&[0], &mut plan)?;
/// device.flush(&[0], &mut plan)?;
/// assert_eq!(device.flush(&[0], &mut plan), Err(Refusal::NoFreeBlock));
///
/// // The driver copies page 4 to page 8, then erases blocks 0 and 1.
/// let collected = device.collect(&mut plan, &mut erased)?;
/// assert_eq!(collected, Collected { first_page: 8, count: 1, erased: 2 });
/// assert_eq!((plan[0], &erased[..2]), (4, &[0, 1][..]));
/// assert_eq!(device.lookup(0)?.page(), Some(8));
/// device.flush(&[0], &mut plan)?;
/// # Ok::<(), Refusal>(())
/// ```
#[derive(Clone, Debug, PartialEq, Eq)]
pub struct Device<S, P> {
    /// The state: the device numbers, the blocks' counts, the discard marks and the
    /// groups.
    pub state: S,
    /// The spare area: 2g + 1 entries of 32 bits for each page, page after page.
    /// Entry j of page p names the logical page that was written at p − g + j.
    pub spare: P,
}

impl<S: AsMut<[u8]>, P: AsMut<[u32]>> Device<S, P> {
    /// Formats the device, whatever its buffers held: no page is written or discarded.
    ///
    /// Refuses [`BadNumbers`](Refusal::BadNumbers), then
    /// [`BadLength`](Refusal::BadLength) where the state or the spare area hasn't
    /// exactly the length that [`Numbers`] gives.
    pub fn format(&mut self, numbers: Numbers) -> Result<(), Refusal> {
        let (state, spare) = self.lend();
        accepted(boundary::format(numbers, state, spare)).map(drop)
    }

    /// Flushes a batch of up to B logical pages, in the order of their arrival, to
    /// a free block. The plan has B entries; for each page to write, from the first
    /// on, it gets the index in the batch of what is stored there, and its later
    /// entries stay. Of a logical page that arrived more than once, the last
    /// arrival counts.
    ///
    /// Refuses, in this order, [`BadNumbers`](Refusal::BadNumbers),
    /// [`BadLength`](Refusal::BadLength), [`NotSound`](Refusal::NotSound),
    /// [`BadBatch`](Refusal::BadBatch), [`OutOfRange`](Refusal::OutOfRange),
    /// and [`NoFreeBlock`](Refusal::NoFreeBlock) where fewer than two blocks are
    /// free; one collection then makes room.
    ///
    /// ```
    /// # use hedjosur::{Device, Flushed, Numbers};
    /// # let numbers = Numbers { blocks: 9, block_pages: 64, logical_pages: 256, error_bound: 1 };
    /// # let mut device = Device { state: [0; 5702], spare: [0; 1728] };
    /// # device.format(numbers)?;
    /// let mut plan = [0; 64];
    /// let flushed = device.flush(&[7, 7], &mut plan)?;
    /// assert_eq!(flushed, Flushed { first_page: 0, count: 1 });
    /// assert_eq!(plan[0], 1);
    /// # Ok::<(), hedjosur::Refusal>(())
    /// ```
    pub fn flush(&mut self, batch: &[u32], plan: &mut [u32]) -> Result<Flushed, Refusal> {
        let (state, spare) = self.lend();
        accepted(boundary::flush(state, spare, batch, plan)).map(Flushed::unpacked)
    }

    /// Collects the used blocks with the fewest valid pages, as many as fit one
    /// block together: their valid pages go to a free block. The plan has B
    /// entries and gets, for each page to write, the page to copy from; `erased`
    /// has M entries and gets the blocks to erase after that. Entries that aren't
    /// needed stay.
    ///
    /// Refuses, in this order, [`BadNumbers`](Refusal::BadNumbers),
    /// [`BadLength`](Refusal::BadLength), [`NotSound`](Refusal::NotSound),
    /// [`NothingToGain`](Refusal::NothingToGain) and
    /// [`NoFreeBlock`](Refusal::NoFreeBlock).
    pub fn collect(&mut self, plan: &mut [u32], erased: &mut [u32]) -> Result<Collected, Refusal> {
        let (state, spare) = self.lend();
        accepted(boundary::collect(state, spare, plan, erased)).map(Collected::unpacked)
    }

    fn lend(&mut self) -> (&mut [u8], &mut [u32]) {
        (self.state.as_mut(), self.spare.as_mut())
    }
}

impl<S: AsMut<[u8]>, P: AsRef<[u32]>> Device<S, P> {
    /// Discards a logical page, whether it was written or not: from now on a lookup
    /// says 'not written' and a collection leaves its page behind, until a flush
    /// writes it again. A mark in the state is all that changes; what the page holds
    /// stays on the chip until its block is erased.
    ///
    /// Refuses, in this order, [`BadNumbers`](Refusal::BadNumbers),
    /// [`BadLength`](Refusal::BadLength), [`OutOfRange`](Refusal::OutOfRange) and
    /// [`NotSound`](Refusal::NotSound) for the page's group.
    ///
    /// ```
    /// # use hedjosur::{Device, Lookup, Numbers};
    /// # let numbers = Numbers { blocks: 9, block_pages: 64, logical_pages: 256, error_bound: 1 };
    /// # let mut device = Device { state: [0; 5702], spare: [0; 1728] };
    /// # device.format(numbers)?;
    /// device.flush(&[7, 8], &mut [0; 64])?;
    /// device.discard(7)?;
    /// assert_eq!(device.lookup(7)?, Lookup::NotWritten { levels: 0 });
    /// assert_eq!(device.lookup(8)?.page(), Some(1));
    /// device.flush(&[7], &mut [0; 64])?;
    /// assert_eq!(device.lookup(7)?.page(), Some(64));
    /// # Ok::<(), hedjosur::Refusal>(())
    /// ```
    pub fn discard(&mut self, logical_page: u32) -> Result<(), Refusal> {
        let (state, spare) = (self.state.as_mut(), self.spare.as_ref());
        accepted(boundary::discard(state, spare, logical_page)).map(drop)
    }
}

impl<S: AsMut<[u8]>, P> Device<S, P> {
    /// Compacts a group: drops what newer records hide. Answers how many records
    /// are left. No lookup finds another page after it.
    ///
    /// Refuses, in this order, [`BadNumbers`](Refusal::BadNumbers),
    /// [`BadLength`](Refusal::BadLength), [`OutOfRange`](Refusal::OutOfRange) where
    /// there is no such group, and [`NotSound`](Refusal::NotSound) for that group.
    pub fn compact(&mut self, group: u32) -> Result<u32, Refusal> {
        let answer = boundary::compact(self.state.as_mut(), group);
        accepted(answer).map(|records| records as u32)
    }
}

impl<S: AsRef<[u8]>, P: AsRef<[u32]>> Device<S, P> {
    /// Looks a logical page up; a discarded one is 'not written'.
    ///
    /// Refuses, in this order, [`BadNumbers`](Refusal::BadNumbers),
    /// [`BadLength`](Refusal::BadLength), [`OutOfRange`](Refusal::OutOfRange),
    /// [`NotSound`](Refusal::NotSound) for the page's group, and
    /// [`NotNamed`](Refusal::NotNamed).
    pub fn lookup(&self, logical_page: u32) -> Result<Lookup, Refusal> {
        let (state, spare) = self.view();
        accepted(boundary::lookup(state, spare, logical_page)).map(Lookup::unpacked)
    }

    /// Whether two devices have as many logical pages and every lookup gives the
    /// same in both: the page, the predicted page and the count of levels; of a
    /// page that is not written the count of levels.
    ///
    /// So two devices that find the same pages need not agree: one that was
    /// compacted may look at fewer levels; one may predict another page and read
    /// twice; a page that was never written has all levels of its group, a discarded
    /// one 0. (Before version 0.4.0 a yes was about the pages alone.) A copy of
    /// state and spare area, made together, agrees with the device it was made from.
    /// A yes is about now: the same call on both may part them. The other device
    /// numbers are not compared, nor what the pages hold.
    ///
    /// Refuses [`BadNumbers`](Refusal::BadNumbers),
    /// [`BadLength`](Refusal::BadLength) and [`NotSound`](Refusal::NotSound) of
    /// this device, then of the other, then [`NotNamed`](Refusal::NotNamed) where
    /// any lookup does.
    ///
    /// ```
    /// # use hedjosur::{Device, Numbers};
    /// # let numbers = Numbers { blocks: 3, block_pages: 4, logical_pages: 4, error_bound: 0 };
    /// # let mut device = Device { state: [0; 5659], spare: [0; 12] };
    /// # device.format(numbers)?;
    /// device.flush(&[0, 1], &mut [0; 4])?;
    /// let before = device.clone();
    /// assert!(device.agree(&before)?);
    /// // Page 3 is 'not written' in both, here after 0 levels and there after 1.
    /// device.discard(3)?;
    /// assert!(!device.agree(&before)?);
    /// # Ok::<(), hedjosur::Refusal>(())
    /// ```
    pub fn agree<S2, P2>(&self, other: &Device<S2, P2>) -> Result<bool, Refusal>
    where
        S2: AsRef<[u8]>,
        P2: AsRef<[u32]>,
    {
        accepted(boundary::agree(self.view(), other.view())).map(|answer| answer != 0)
    }

    fn view(&self) -> (&[u8], &[u32]) {
        (self.state.as_ref(), self.spare.as_ref())
    }
}

impl<S: AsRef<[u8]>, P> Device<S, P> {
    /// Lists a group's records, levels downward, each ascending, from a buffer of
    /// [`LISTING_LEN`](crate::LISTING_LEN) bytes that is lent for it.
    ///
    /// Refuses as [`compact`](Device::compact) does,
    /// [`BadLength`](Refusal::BadLength) for the buffer too.
    ///
    /// ```
    /// # use hedjosur::{Device, Numbers};
    /// # let numbers = Numbers { blocks: 9, block_pages: 64, logical_pages: 256, error_bound: 0 };
    /// # let mut device = Device { state: [0; 5702], spare: [0; 576] };
    /// # device.format(numbers)?;
    /// device.flush(&[100, 102, 104, 106], &mut [0; 64])?;
    /// let mut buffer = [0; hedjosur::LISTING_LEN];
    /// let listed: Vec<String> = device.list(0, &mut buffer)?.map(|r| r.to_string()).collect();
    /// assert_eq!(listed, ["     0   100     6     4       -50"]);
    /// # Ok::<(), hedjosur::Refusal>(())
    /// ```
    pub fn list<'a>(&self, group: u32, buffer: &'a mut [u8]) -> Result<Listing<'a>, Refusal> {
        let count = accepted(boundary::list(self.state.as_ref(), group, buffer))?;
        Ok(Listing::new(buffer, count as usize))
    }

    /// Tells support staff why a lookup of a logical page ends where it does: a
    /// [`Reason`](crate::Reason) for each level of its group from the top, down to the
    /// record that has the page or else to the last level, from a buffer of
    /// [`WHY_LEN`](crate::WHY_LEN) bytes that is lent for it.
    ///
    /// There are as many reasons as a lookup looks at levels, and the last is
    /// [`Member`](crate::Reason::Member) exactly where the lookup doesn't say 'not
    /// written'. A discarded page has none, whatever its records, nor has any page of a
    /// group without records. The spare area isn't needed: where a lookup refuses
    /// [`NotNamed`](Refusal::NotNamed), the last reason shows the record that it
    /// followed.
    ///
    /// Refuses, in this order, [`BadNumbers`](Refusal::BadNumbers),
    /// [`BadLength`](Refusal::BadLength) for the state or the buffer,
    /// [`OutOfRange`](Refusal::OutOfRange) and [`NotSound`](Refusal::NotSound) for the
    /// page's group.
    ///
    /// ```
    /// # use hedjosur::{Device, Numbers};
    /// # let numbers = Numbers { blocks: 9, block_pages: 64, logical_pages: 256, error_bound: 1 };
    /// # let mut device = Device { state: [0; 5702], spare: [0; 1728] };
    /// # device.format(numbers)?;
    /// # for batch in [0..=63, 200..=255, 16..=31] {
    /// #     device.flush(&Vec::from_iter(batch), &mut [0; 64])?;
    /// # }
    /// // Document 01's script, before its last flush.
    /// device.flush(&[75, 78, 82], &mut [0; 64])?;
    /// device.flush(&[72, 73, 80], &mut [0; 64])?;
    /// let mut buffer = [0; hedjosur::WHY_LEN];
    /// let told: Vec<String> = device.why(78, &mut buffer)?.map(|r| r.to_string()).collect();
    /// assert_eq!(told, [
    ///     "level 0: record 72..80, approximate: 78 is not owned by it, but by the approximate record from 75",
    ///     "level 1: record 75..82, approximate: 78 is a member, page 193 is predicted",
    /// ]);
    /// // A page that was never written, between others that were.
    /// let told: Vec<String> = device.why(76, &mut buffer)?.map(|r| r.to_string()).collect();
    /// assert_eq!(told, [
    ///     "level 0: record 72..80, approximate: 76 is not owned by it, nor by any other",
    ///     "level 1: record 75..82, approximate: 76 is not owned by it, nor by any other",
    /// ]);
    /// # Ok::<(), hedjosur::Refusal>(())
    /// ```
    pub fn why<'a>(&self, logical_page: u32, buffer: &'a mut [u8]) -> Result<Why<'a>, Refusal> {
        let count = accepted(boundary::why(self.state.as_ref(), logical_page, buffer))?;
        Ok(Why::new(buffer, count as usize, logical_page))
    }
}
