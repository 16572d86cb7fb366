//! The discard marks: 'a bit of number i is bit i mod 8 (lowest first) of byte
//! i / 8'. The bits behind the last one are read and written like any other, so
//! that a call keeps them.

/// The bits of these bytes.
pub(crate) fn decode_marks(bytes: &[u8]) -> Vec<bool> {
    let bits = |byte: &u8| {
        let byte = *byte;
        (0..8).map(move |bit| byte >> bit & 1 == 1)
    };
    bytes.iter().flat_map(bits).collect()
}

/// The bytes of these bits, which fill whole bytes.
pub(crate) fn encode_marks(marks: &[bool]) -> impl Iterator<Item = u8> + '_ {
    let (bytes, _) = marks.as_chunks::<8>();
    bytes.iter().map(|bits| {
        let highest_first = bits.iter().rev();
        highest_first.fold(0, |byte, &bit| 2 * byte + u8::from(bit))
    })
}

#[cfg(test)]
mod tests {
    use super::*;

    #[test]
    fn a_bit_has_its_place() {
        for number in 0..24 {
            let mut marks = vec![false; 24];
            marks[number] = true;
            let mut bytes = [0; 3];
            bytes[number / 8] = [1, 2, 4, 8, 16, 32, 64, 128][number % 8];
            assert!(encode_marks(&marks).eq(bytes), "bit {number}");
            assert_eq!(decode_marks(&bytes), marks, "bit {number}");
        }
    }

    #[test]
    fn every_byte_is_read_and_written() {
        let bytes: Vec<u8> = (0..=255).collect();
        let marks = decode_marks(&bytes);
        assert_eq!(marks.len(), 8 * 256);
        assert!(encode_marks(&marks).eq(bytes));
    }
}
