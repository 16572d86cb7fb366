//! A device's numbers, and the lengths that they give.

use crate::boundary;

/// The states' parts, as docs/LAYOUT.md fixes them: the device numbers, a block's
/// count, a group of the learned engine's, an entry of the plain one's. Between counts
/// and groups stand the discard marks, a bit each.
const HEAD_LEN: usize = 16;
const COUNT_LEN: usize = 2;
const GROUP_LEN: usize = 5636;
const ENTRY_LEN: usize = 4;

/// The logical pages of a group.
pub(crate) const GROUP_PAGES: u32 = 256;

/// The four numbers of a device. Its lengths are known when it is compiled, so
/// that buffers can be arrays:
///
/// ```
/// use hedjosur::{Device, Numbers};
///
/// const NUMBERS: Numbers =
///     Numbers { blocks: 3, block_pages: 4, logical_pages: 4, error_bound: 0 };
/// const STATE: usize = NUMBERS.state_len().expect("numbers inside their limits");
/// const SPARE: usize = NUMBERS.spare_len().expect("numbers inside their limits");
/// assert_eq!((STATE, SPARE), (5659, 12));
/// let mut device = Device { state: [0; STATE], spare: [0; SPARE] };
/// device.format(NUMBERS)?;
/// # Ok::<(), hedjosur::Refusal>(())
/// ```
///
/// Numbers outside their limits have no lengths:
///
/// ```
/// # use hedjosur::Numbers;
/// # let numbers = Numbers { blocks: 3, block_pages: 4, logical_pages: 4, error_bound: 0 };
/// // 2 × N may be at most (M − 1) × B.
/// let numbers = Numbers { logical_pages: 5, ..numbers };
/// assert_eq!(numbers.state_len(), None);
/// ```
#[derive(Clone, Copy, Debug, PartialEq, Eq, Hash)]
pub struct Numbers {
    /// M, the number of blocks, 3 to 4,096.
    pub blocks: u32,
    /// B, the pages of a block, 4 to 256.
    pub block_pages: u32,
    /// N, the number of logical pages: at least 1, and 2 × N at most (M − 1) × B.
    pub logical_pages: u32,
    /// g, how far a predicted page may be off, 0 to 15. The plain engine takes and
    /// keeps it, and doesn't use it.
    pub error_bound: u32,
}

impl Numbers {
    /// The length of a [`Device`](crate::Device)'s state in bytes, or `None` where a
    /// number is outside its limits.
    pub const fn state_len(self) -> Option<usize> {
        match self.is_device() {
            true => Some(
                HEAD_LEN
                    + COUNT_LEN * self.blocks as usize
                    + self.logical_pages.div_ceil(8) as usize
                    + GROUP_LEN * self.logical_pages.div_ceil(GROUP_PAGES) as usize,
            ),
            false => None,
        }
    }

    /// The length of the spare area in entries of 32 bits, 2g + 1 for each page, or
    /// `None` where a number is outside its limits.
    pub const fn spare_len(self) -> Option<usize> {
        match self.is_device() {
            true => Some((self.blocks * self.block_pages * (2 * self.error_bound + 1)) as usize),
            false => None,
        }
    }

    /// The length of a [`Plain`](crate::Plain) device's state in bytes, or `None` where
    /// a number is outside its limits.
    ///
    /// ```
    /// use hedjosur::{Numbers, Plain};
    ///
    /// const NUMBERS: Numbers =
    ///     Numbers { blocks: 3, block_pages: 4, logical_pages: 4, error_bound: 0 };
    /// const STATE: usize = NUMBERS.plain_state_len().expect("numbers inside their limits");
    /// assert_eq!(STATE, 38);
    /// Plain { state: [0; STATE] }.format(NUMBERS)?;
    /// # Ok::<(), hedjosur::Refusal>(())
    /// ```
    pub const fn plain_state_len(self) -> Option<usize> {
        match self.is_device() {
            true => Some(
                HEAD_LEN
                    + COUNT_LEN * self.blocks as usize
                    + ENTRY_LEN * self.logical_pages as usize,
            ),
            false => None,
        }
    }

    /// How many groups the logical pages make:
    /// [`Device::compact`](crate::Device::compact) and
    /// [`Device::list`](crate::Device::list) take a number below it. `None` where a
    /// number is outside its limits.
    pub const fn groups(self) -> Option<u32> {
        match self.is_device() {
            true => Some(self.logical_pages.div_ceil(GROUP_PAGES)),
            false => None,
        }
    }

    /// The lengths of state and spare area as the linked archive answers them. They
    /// are those of [`state_len`](Numbers::state_len) and
    /// [`spare_len`](Numbers::spare_len), unless the archive is of another version
    /// than this crate.
    pub fn archive_lens(self) -> Option<[usize; 2]> {
        match [boundary::state_len(self), boundary::spare_len(self)] {
            [0, 0] => None,
            lengths => Some(lengths.map(|length| length as usize)),
        }
    }

    /// The length of the plain engine's state as the linked archive answers it, beside
    /// [`plain_state_len`](Numbers::plain_state_len) as above.
    pub fn archive_plain_len(self) -> Option<usize> {
        match boundary::plain_state_len(self) {
            0 => None,
            length => Some(length as usize),
        }
    }

    /// Whether the numbers are inside their limits.
    const fn is_device(self) -> bool {
        let Numbers {
            blocks,
            block_pages,
            logical_pages,
            error_bound,
        } = self;
        3 <= blocks
            && blocks <= 4096
            && 4 <= block_pages
            && block_pages <= 256
            && 1 <= logical_pages
            && logical_pages <= (blocks - 1) * block_pages / 2
            && error_bound <= 15
    }

    /// M, B, N, g.
    pub(crate) const fn in_order(self) -> [u32; 4] {
        [
            self.blocks,
            self.block_pages,
            self.logical_pages,
            self.error_bound,
        ]
    }
}

#[cfg(test)]
mod tests {
    use super::Numbers;

    /// The lengths computed here are those that the archive's functions answer: at
    /// all limits, beside them, and for numbers that overflow where one is careless.
    #[test]
    fn lengths_are_those_of_the_archive() {
        let mut devices = 0;
        for blocks in [0, 1, 2, 3, 4, 9, 129, 4095, 4096, 4097, u32::MAX] {
            for block_pages in [0, 3, 4, 5, 63, 64, 255, 256, 257, 1 << 31, u32::MAX] {
                for error_bound in [0, 1, 2, 14, 15, 16, 1 << 31, u32::MAX] {
                    let most = u64::from(blocks.saturating_sub(1)) * u64::from(block_pages) / 2;
                    let most = most.min(u64::from(u32::MAX)) as u32;
                    let beside = [most.saturating_sub(1), most, most.saturating_add(1)];
                    let few = [0, 1, 7, 8, 9, 255, 256, 257, u32::MAX];
                    for logical_pages in few.into_iter().chain(beside) {
                        let numbers = Numbers {
                            blocks,
                            block_pages,
                            logical_pages,
                            error_bound,
                        };
                        let archive = numbers.archive_lens();
                        let lengths = archive.map_or([None; 2], |lengths| lengths.map(Some));
                        let computed = [numbers.state_len(), numbers.spare_len()];
                        assert_eq!(computed, lengths, "{numbers:?}");
                        let plain = numbers.archive_plain_len();
                        assert_eq!(numbers.plain_state_len(), plain, "{numbers:?}");
                        assert_eq!(numbers.groups().is_some(), archive.is_some());
                        devices += usize::from(archive.is_some());
                    }
                }
            }
        }
        assert!(devices > 500, "{devices} devices");
    }
}
