//! The state as it is lent: 'a lent byte slice, holds M, B, N, g, each block's
//! count of written pages (0 is free) and the groups', and for each logical page
//! whether it is discarded.
//!
//! The byte layout is not the model's business, but lengths are, because of
//! refusals 1 and 2. A slice that is too short for the four numbers is
//! [`Lent::Short`]. Any other slice is [`Lent::Held`], and its length is told
//! by how many counts, bits of marks and groups it has room for: it has the
//! length that a device gives exactly if those are M, N in whole bytes and the
//! device's number of groups. Two devices may give one length; then a slice has
//! room as the device has that the call is about. A length that no device gives
//! is a state with no group at all.
//!
//! The plain engine's slice is lent alike; [`crate::plain`] says what it holds.

use crate::device::Device;
use crate::levels::Group;
use crate::ops::{require, Refusal};

/// A state slice as a call receives it, of any length and with any contents.
#[derive(Clone, Debug, PartialEq, Eq)]
pub enum Lent<C = State> {
    /// Too short to hold the device numbers.
    Short,
    /// Long enough for the device numbers.
    Held(C),
}

/// What refusals 1 and 2 look at in the contents of a state slice.
pub trait Contents {
    /// M, B, N and g.
    fn numbers(&self) -> [u32; 4];

    /// Whether the slice has exactly the length that `device` gives.
    fn fits(&self, device: &Device) -> bool;
}

/// The contents of a state slice. Nothing here needs to be inside limits,
/// of the right length, or sound.
#[derive(Clone, Debug, PartialEq, Eq)]
pub struct State {
    /// M, B, N and g.
    pub numbers: [u32; 4],
    /// Each block's count of written pages; 0 is free.
    pub counts: Vec<u32>,
    /// Whether each logical page is discarded; the bits behind the last one fill
    /// its byte and are ignored.
    pub marks: Vec<bool>,
    /// The groups, by number.
    pub groups: Vec<Group>,
}

impl Lent {
    /// A slice of the length that `device` gives, not formatted yet.
    pub fn fitting(device: &Device) -> Lent {
        Lent::Held(State {
            numbers: [0; 4],
            ..State::formatted(device)
        })
    }
}

impl<C: Contents> Lent<C> {
    /// The device and the state, or what 'every other operation refuses': '1
    /// when the state is too short to hold the device numbers or they are
    /// outside limits, and 2 when a lent slice has a wrong length'.
    pub fn open(&self) -> Result<(Device, &C), Refusal> {
        let Lent::Held(state) = self else {
            return Err(Refusal::BadNumbers);
        };
        let device = Device::new(state.numbers()).ok_or(Refusal::BadNumbers)?;
        require(state.fits(&device), Refusal::BadLength)?;
        Ok((device, state))
    }

    /// As [`Lent::open`], for an operation that writes the state.
    pub fn open_mut(&mut self) -> Result<(Device, &mut C), Refusal> {
        let (device, _) = self.open()?;
        Ok((device, self.held_mut()))
    }

    /// The contents, of a slice that is long enough to hold the device numbers.
    pub fn held_mut(&mut self) -> &mut C {
        match self {
            Lent::Held(state) => state,
            Lent::Short => panic!("the state is too short"),
        }
    }

    /// The device of these numbers and the state, whatever it holds, or what format
    /// refuses: '1 when a device number is outside its limits, then 2 when state
    /// [...] hasn't exactly the length these numbers give'.
    pub fn open_for_format(&mut self, numbers: [u32; 4]) -> Result<(Device, &mut C), Refusal> {
        let device = Device::new(numbers).ok_or(Refusal::BadNumbers)?;
        match self {
            Lent::Held(state) if state.fits(&device) => Ok((device, state)),
            _ => Err(Refusal::BadLength),
        }
    }
}

impl Contents for State {
    fn numbers(&self) -> [u32; 4] {
        self.numbers
    }

    fn fits(&self, device: &Device) -> bool {
        self.counts.len() == device.blocks as usize
            && self.marks.len() == device.mark_bits()
            && self.groups.len() == device.groups()
    }
}

impl State {
    /// A newly formatted device's.
    pub fn formatted(device: &Device) -> State {
        State {
            numbers: device.numbers(),
            counts: vec![0; device.blocks as usize],
            marks: vec![false; device.mark_bits()],
            groups: vec![Group::default(); device.groups()],
        }
    }
}

/// The free blocks, ascending.
pub fn free_blocks(counts: &[u32]) -> Vec<u32> {
    blocks_where(counts, |count| count == 0)
}

/// The used blocks, ascending.
pub fn used_blocks(counts: &[u32]) -> Vec<u32> {
    blocks_where(counts, |count| count != 0)
}

fn blocks_where(counts: &[u32], wanted: impl Fn(u32) -> bool) -> Vec<u32> {
    (0..counts.len() as u32)
        .filter(|&block| wanted(counts[block as usize]))
        .collect()
}
