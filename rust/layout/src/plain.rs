//! The plain engine's state: head, counts and an entry for each logical page.

use hedjosur_model::device::Device;
use hedjosur_model::plain::{state_bytes, Lent, State};

use crate::places::{u16_at, COUNT_BYTES, HEAD_BYTES};

/// The bytes of a logical page's entry in the plain engine's state.
pub const ENTRY_BYTES: usize = 4;

/// Where the entries of a device begin in the plain engine's state, behind its counts.
#[inline]
pub fn entries_at(device: &Device) -> usize {
    HEAD_BYTES + COUNT_BYTES * device.blocks as usize
}

/// The bytes of a state of the plain engine: all of them are read. Panics where a count
/// needs more than two.
pub fn encode_plain_state(state: &State) -> Vec<u8> {
    let mut bytes = numbers_to_bytes(&state.numbers);
    for &count in &state.counts {
        let count = u16::try_from(count).expect("a count of two bytes");
        bytes.extend(count.to_le_bytes());
    }
    bytes.extend(numbers_to_bytes(&state.entries));
    bytes
}

/// What bytes of a state of the plain engine are read as, where they hold the device
/// numbers; without the length that these give it has no counts or entries. Panics
/// where they are too short for the numbers.
pub fn decode_plain_state(bytes: &[u8]) -> State {
    let head = numbers_of_bytes(&bytes[..HEAD_BYTES]);
    let numbers = [head[0], head[1], head[2], head[3]];
    let fitting = Device::new(numbers).filter(|_| bytes.len() == state_bytes(numbers));
    let [counts, entries] = fitting.map_or([&[][..]; 2], |device| {
        let entries_at = entries_at(&device);
        [&bytes[HEAD_BYTES..entries_at], &bytes[entries_at..]]
    });
    let counts = counts.chunks(COUNT_BYTES);
    State {
        numbers,
        counts: counts.map(|count| u16_at(count, 0).into()).collect(),
        entries: numbers_of_bytes(entries),
    }
}

/// What any bytes of a state of the plain engine are read as.
pub fn read_plain_state(bytes: &[u8]) -> Lent {
    match bytes.len() {
        ..HEAD_BYTES => Lent::Short,
        _ => Lent::Held(decode_plain_state(bytes)),
    }
}

/// The bytes of numbers of four bytes.
fn numbers_to_bytes(numbers: &[u32]) -> Vec<u8> {
    numbers.iter().flat_map(|n| n.to_le_bytes()).collect()
}

/// The numbers of four bytes each.
fn numbers_of_bytes(bytes: &[u8]) -> Vec<u32> {
    let (numbers, _) = bytes.as_chunks::<ENTRY_BYTES>();
    numbers.iter().map(|&n| u32::from_le_bytes(n)).collect()
}

#[cfg(test)]
mod tests {
    use hedjosur_model::plain::NOT_WRITTEN;
    use hedjosur_model::testing::{rounds, small_device};

    use super::*;

    #[test]
    fn a_state_has_the_bytes_of_the_page() {
        let state = State {
            numbers: [3, 8, 6, 2],
            counts: vec![8, 0, 258],
            entries: vec![7, NOT_WRITTEN, 0x0102_0304, 0, 16, 23],
        };
        let bytes = encode_plain_state(&state);
        let head = [3, 0, 0, 0, 8, 0, 0, 0, 6, 0, 0, 0, 2, 0, 0, 0];
        assert_eq!(bytes[..16], head);
        assert_eq!(bytes[16..22], [8, 0, 0, 0, 2, 1]);
        assert_eq!(bytes[22..34], [7, 0, 0, 0, 255, 255, 255, 255, 4, 3, 2, 1]);
        assert_eq!(bytes[34..], [0, 0, 0, 0, 16, 0, 0, 0, 23, 0, 0, 0]);
        assert_eq!(read_plain_state(&bytes), Lent::Held(state));
    }

    #[test]
    fn what_is_written_is_read() {
        rounds(300, &mut (), |random, log, ()| {
            let device = small_device(random);
            let mut state = State::formatted(&device);
            let counts = state.counts.iter_mut();
            counts.for_each(|count| *count = random.below(1 << 16));
            let entries = state.entries.iter_mut();
            entries.for_each(|entry| *entry = random.bits() as u32);
            log.note(&state);
            let bytes = encode_plain_state(&state);
            assert_eq!(bytes.len(), state_bytes(device.numbers()));
            assert_eq!(decode_plain_state(&bytes), state);
        });
    }

    /// Without the length that its numbers give a state has no counts or entries.
    #[test]
    fn another_length_is_read_as_no_state() {
        let device = Device::new([3, 8, 8, 0]).expect("a device");
        let bytes = encode_plain_state(&State::formatted(&device));
        let one_less = &bytes[..bytes.len() - 1];
        let one_more = [&bytes[..], &[0]].concat();
        let mut fewer = bytes.clone();
        fewer[8] = 7;
        for other in [one_less, &one_more, &fewer] {
            let state = decode_plain_state(other);
            assert!(state.counts.is_empty() && state.entries.is_empty());
        }
        assert_eq!(read_plain_state(&bytes[..HEAD_BYTES - 1]), Lent::Short);
    }
}
