//! What is lent to calls on a device, and the timing of calls that change it.

use hedjosur_conformance::calls::Calls;
use hedjosur_conformance::subjects::{Baseline, Exported};
use hedjosur_layout::{encode_state, state_bytes};
use hedjosur_model::device::Device;
use hedjosur_model::ops::{Collected, Flushed, Refusal};
use hedjosur_model::spare;
use hedjosur_model::state::State;
use hedjosur_model::testing::{batch, lists, Random};

use crate::kinds;
use crate::row;
use crate::timing::compare;

/// All that is lent to the calls on a device.
#[derive(Clone)]
pub struct Buffers {
    /// The state.
    pub state: Vec<u8>,
    /// The spare area; the plain engine has none.
    pub area: Vec<u32>,
    /// The plan.
    pub plan: Vec<u32>,
    /// The list of erased blocks.
    pub erased: Vec<u32>,
    /// The entries that tell why.
    pub entries: Vec<u8>,
}

impl Buffers {
    /// Buffers of a state and its spare area.
    pub fn new(device: &Device, state: Vec<u8>, area: Vec<u32>) -> Buffers {
        let [plan, erased] = lists(device);
        Buffers {
            state,
            area,
            plan,
            erased,
            entries: vec![0; hedjosur::WHY_LEN],
        }
    }

    /// A device with this many blocks used, by batches of all patterns.
    pub fn used(device: &Device, blocks: u32) -> Buffers {
        let random = &mut Random::new(blocks.into());
        let state = vec![0; state_bytes(device)];
        let mut buffers = Buffers::new(device, state, vec![0; device.spare_length()]);
        assert_eq!(buffers.format(&Baseline, device.numbers()), Ok(()));
        for _ in 0..blocks {
            let flushed = buffers.flush(&Baseline, &batch(random, device));
            flushed.expect("an accepted flush");
        }
        buffers
    }

    /// A device whose blocks are free and whose groups hold many records.
    pub fn crowded(device: &Device) -> Buffers {
        let random = &mut Random::new(0);
        let state = State {
            groups: (0..device.groups())
                .map(|_| kinds::crowded(random))
                .collect(),
            ..State::formatted(device)
        };
        let state = encode_state(&state, || 0).expect("a state with bytes");
        Buffers::new(device, state, vec![spare::NOBODY; device.spare_length()])
    }

    /// Formats the device.
    pub fn format(&mut self, calls: &dyn Calls, numbers: [u32; 4]) -> Result<(), Refusal> {
        calls.format(&mut self.state, &mut self.area, numbers)
    }

    /// Flushes a batch.
    pub fn flush(&mut self, calls: &dyn Calls, batch: &[u32]) -> Result<Flushed, Refusal> {
        calls.flush(&mut self.state, &mut self.area, batch, &mut self.plan)
    }

    /// Discards a logical page.
    pub fn discard(&mut self, calls: &dyn Calls, logical_page: u32) -> Result<(), Refusal> {
        calls.discard(&mut self.state, &self.area, logical_page)
    }

    /// Collects.
    pub fn collect(&mut self, calls: &dyn Calls) -> Result<Collected, Refusal> {
        let Buffers {
            state,
            area,
            plan,
            erased,
            ..
        } = self;
        calls.collect(state, area, plan, erased)
    }

    /// Compacts a group.
    pub fn compact(&mut self, calls: &dyn Calls, group: u32) -> Result<usize, Refusal> {
        calls.compact(&mut self.state, group)
    }

    /// Agreement with others.
    pub fn agree(&self, calls: &dyn Calls, other: &Buffers) -> Result<bool, Refusal> {
        let own = (&self.state[..], &self.area[..]);
        calls.agree(own, (&other.state, &other.area))
    }
}

/// Buffers that a call changes, and what they are before each time.
struct Changed {
    before: Buffers,
    now: Buffers,
    /// Which pieces of state and spare area the call changes.
    pieces: [Vec<usize>; 2],
}

/// The length of a piece.
const PIECE: usize = 1024;

impl Changed {
    /// Has either side make the call once, to see what it changes.
    fn new<C: ?Sized>(sides: [&C; 2], before: Buffers, call: impl Fn(&C, &mut Buffers)) -> Changed {
        let mut changed = Changed {
            now: before.clone(),
            before,
            pieces: [Vec::new(), Vec::new()],
        };
        for calls in sides {
            call(calls, &mut changed.now);
            let Changed { before, now, .. } = &changed;
            let found = [
                differing(&before.state, &now.state),
                differing(&before.area, &now.area),
            ];
            for (pieces, found) in changed.pieces.iter_mut().zip(found) {
                pieces.extend(found);
            }
            changed.restore();
        }
        changed
    }

    fn restore(&mut self) {
        let Changed {
            before,
            now,
            pieces: [state, area],
        } = self;
        restore(&before.state, &mut now.state, state);
        restore(&before.area, &mut now.area, area);
    }
}

/// The numbers of the pieces that differ.
fn differing<T: PartialEq>(one: &[T], other: &[T]) -> Vec<usize> {
    let pieces = one.chunks(PIECE).zip(other.chunks(PIECE)).enumerate();
    let differing = pieces.filter(|(_, (one, other))| one != other);
    differing.map(|(at, _)| at).collect()
}

fn restore<T: Copy>(before: &[T], now: &mut [T], pieces: &[usize]) {
    for at in pieces {
        let piece = at * PIECE..before.len().min((at + 1) * PIECE);
        now[piece.clone()].copy_from_slice(&before[piece]);
    }
}

/// Times a call on these buffers.
pub fn time(function: &str, input: &str, before: Buffers, call: impl Fn(&dyn Calls, &mut Buffers)) {
    time_each(function, input, &before, &[()], |calls, buffers, ()| {
        call(calls, buffers);
    });
}

/// Times a call with each of these arguments, each time on the same buffers.
pub fn time_each<T>(
    function: &str,
    input: &str,
    before: &Buffers,
    arguments: &[T],
    call: impl Fn(&dyn Calls, &mut Buffers, &T),
) {
    let sides: [&dyn Calls; 2] = [&Baseline, &Exported];
    time_sides(
        sides,
        function,
        input,
        before,
        arguments,
        |calls, now, argument| {
            call(calls, now, argument);
        },
    );
}

/// As [`time_each`], with the baseline's calls and the proved ones of an engine.
pub fn time_sides<C: ?Sized, T>(
    sides: [&C; 2],
    function: &str,
    input: &str,
    before: &Buffers,
    arguments: &[T],
    call: impl Fn(&C, &mut Buffers, &T),
) {
    let changed = arguments.iter().map(|argument| {
        let call = |calls: &C, buffers: &mut Buffers| call(calls, buffers, argument);
        Changed::new(sides, before.clone(), call)
    });
    let [baseline, proved] = sides.map(|calls| {
        let call = &call;
        move |work: &mut Vec<Changed>| {
            for (changed, argument) in work.iter_mut().zip(arguments) {
                call(calls, &mut changed.now, argument);
            }
        }
    });
    row(function, input, || {
        compare(
            &mut changed.collect(),
            arguments.len(),
            |work: &mut Vec<Changed>| work.iter_mut().for_each(Changed::restore),
            baseline,
            proved,
        )
    });
}
