//! What the words of records allow, without a division.

/// More than any word that is tabled.
const WORDS: usize = 1024;

/// For each word a factor. A distance is allowed where its product, modulo 65,536,
/// is below the factor: of a single 0, of stride d its multiples (65,536 / d rounded
/// up), of an approximate record any, and of a word that isn't tabled none.
static FACTORS: [i32; WORDS] = factors();

const fn factors() -> [i32; WORDS] {
    let mut table = [0; WORDS];
    table[0] = 1;
    let mut stride = 1;
    while stride <= 255 {
        table[2 * stride] = 65_536u32.div_ceil(stride as u32) as i32;
        stride += 1;
    }
    let mut slope = 0;
    while slope <= 256 {
        table[2 * slope + 1] = 65_536;
        slope += 1;
    }
    table
}

/// Below 0 where a word, of the low ten bits given, allows a distance between
/// members.
#[inline(always)]
pub fn excess(word: i32, distance: i32) -> i32 {
    let factor = FACTORS[word as usize % WORDS];
    ((distance * factor) & 0xFFFF) - factor
}

/// Whether a word that is tabled allows a distance between members.
#[inline]
pub fn allows(word: u16, distance: u8) -> bool {
    excess(word.into(), distance.into()) < 0
}

#[cfg(test)]
mod tests {
    use super::allows;

    #[test]
    fn words_allow_what_document_01_tables() {
        for distance in 0..=255 {
            for word in 0..1024 {
                let expected = match word {
                    0 => distance == 0,
                    _ if word % 2 == 1 => word <= 513,
                    _ => word <= 510 && u16::from(distance) % (word / 2) == 0,
                };
                assert_eq!(allows(word, distance), expected, "{word}, {distance}");
            }
        }
    }
}
