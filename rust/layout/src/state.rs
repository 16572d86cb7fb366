//! A state.

use hedjosur_model::device::Device;
use hedjosur_model::state::{Lent, State};

use crate::group::{encode_group, read_group};
use crate::marks::{decode_marks, encode_marks};
use crate::places::{
    groups_at, marks_at, state_bytes, u16_at, COUNT_BYTES, GROUP_BYTES, HEAD_BYTES,
};

/// The bytes of a state whose lengths fit its numbers, over `fill` where nothing
/// is read. None where no bytes encode it.
pub fn encode_state(state: &State, mut fill: impl FnMut() -> u8) -> Option<Vec<u8>> {
    let numbers = state.numbers.iter().flat_map(|n| n.to_le_bytes());
    let mut bytes: Vec<u8> = numbers.collect();
    for &count in &state.counts {
        bytes.extend(u16::try_from(count).ok()?.to_le_bytes());
    }
    bytes.extend(encode_marks(&state.marks));
    for group in &state.groups {
        let from = bytes.len();
        bytes.extend((0..GROUP_BYTES).map(|_| fill()));
        if !encode_group(group, &mut bytes[from..]) {
            return None;
        }
    }
    Some(bytes)
}

/// What any bytes of a state are read as.
pub fn read_state(bytes: &[u8]) -> Lent {
    let Some(head) = bytes.first_chunk::<HEAD_BYTES>() else {
        return Lent::Short;
    };
    let (numbers, _) = head.as_chunks::<4>();
    let numbers: [u32; 4] = std::array::from_fn(|i| u32::from_le_bytes(numbers[i]));
    let fitting = Device::new(numbers).filter(|device| bytes.len() == state_bytes(device));
    let [counts, marks, groups] = fitting.map_or([&[][..]; 3], |device| {
        let (marks_at, groups_at) = (marks_at(&device), groups_at(&device));
        [
            &bytes[HEAD_BYTES..marks_at],
            &bytes[marks_at..groups_at],
            &bytes[groups_at..],
        ]
    });
    Lent::Held(State {
        numbers,
        counts: counts
            .chunks(COUNT_BYTES)
            .map(|c| u16_at(c, 0).into())
            .collect(),
        marks: decode_marks(marks),
        groups: groups.chunks(GROUP_BYTES).map(read_group).collect(),
    })
}

#[cfg(test)]
mod tests {
    use hedjosur_model::testing::{rounds, small_device, sound_state};

    use super::*;

    #[test]
    fn a_state_has_the_bytes_of_the_page() {
        let device = Device::new([3, 8, 6, 2]).expect("a device");
        let mut state = State::formatted(&device);
        state.counts = vec![8, 0, 3];
        // Logical pages 0 and 5, and the last bit of their byte.
        for bit in [0, 5, 7] {
            state.marks[bit] = true;
        }
        let bytes = encode_state(&state, || 0xA5).expect("a state with bytes");
        let head = [3, 0, 0, 0, 8, 0, 0, 0, 6, 0, 0, 0, 2, 0, 0, 0];
        assert_eq!(bytes[..16], head);
        assert_eq!(bytes[16..22], [8, 0, 0, 0, 3, 0]);
        assert_eq!(bytes[22..23], [0b1010_0001]);
        assert_eq!(bytes[23..27], [0; 4]);
        assert_eq!(bytes.len(), 23 + GROUP_BYTES);
        assert_eq!(read_state(&bytes), Lent::Held(state));
    }

    /// The bits behind the last mark among the rest.
    #[test]
    fn what_is_written_is_read() {
        let mut ignored = 0;
        rounds(300, &mut ignored, |random, log, ignored| {
            let device = small_device(random);
            let state = sound_state(random, &device);
            log.note(&state);
            let bytes = encode_state(&state, || random.bits() as u8).expect("a state with bytes");
            assert_eq!(bytes.len(), state_bytes(&device));
            let behind = &state.marks[device.logical_pages as usize..];
            *ignored += behind.iter().filter(|&&bit| bit).count();
            assert_eq!(read_state(&bytes), Lent::Held(state));
        });
        assert!(ignored > 0, "no bit behind the last mark was set");
    }

    /// Without the length that its numbers give a state has no counts, marks or
    /// groups.
    #[test]
    fn another_length_is_read_as_no_state() {
        let device = Device::new([3, 8, 8, 0]).expect("a device");
        let bytes = encode_state(&State::formatted(&device), || 0).expect("a state with bytes");
        // A byte less, a byte more, and a logical page that needs a byte more.
        let one_less = &bytes[..bytes.len() - 1];
        let one_more = [&bytes[..], &[0]].concat();
        let mut larger = bytes.clone();
        (larger[4], larger[8]) = (12, 9);
        for other in [one_less, &one_more, &larger] {
            let Lent::Held(state) = read_state(other) else {
                panic!("it holds device numbers");
            };
            assert!(state.counts.is_empty() && state.marks.is_empty() && state.groups.is_empty());
        }
        assert_eq!(read_state(&bytes[..HEAD_BYTES - 1]), Lent::Short);
    }
}
