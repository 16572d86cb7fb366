//! Cases of telling why: what is listed, byte by byte.

use crate::ops::ENTRY_BYTES;

/// A device with flushes behind it, and what is listed for some logical pages.
#[derive(Clone, Debug)]
pub struct Why {
    /// What it shows.
    pub name: &'static str,
    /// M, B, N, g.
    pub numbers: [u32; 4],
    /// The flushes, all accepted.
    pub flushes: Vec<Vec<u32>>,
    /// Whether group 0 is compacted then.
    pub compacted: bool,
    /// Logical pages, each with its entries from the top: start, span, word,
    /// intercept (or zeros), reason, 1 if an owner is given, its start, 0.
    pub told: Vec<(u32, Vec<[u8; ENTRY_BYTES]>)>,
}

/// The cases of telling why.
pub fn whys() -> Vec<Why> {
    vec![
        nothing(),
        zeros(),
        strides(),
        words(),
        every_reason(),
        script(),
        script_written_over(),
        taken(),
        hidden(),
        hidden_and_compacted(),
    ]
}

/// A group without records has no level.
fn nothing() -> Why {
    Why {
        name: "nothing is written",
        numbers: [3, 4, 4, 0],
        flushes: vec![],
        compacted: false,
        told: vec![(0, vec![])],
    }
}

/// The single of logical page 0 on page 0 is eight zeros.
fn zeros() -> Why {
    Why {
        name: "a record of zeros is told from none by the reason alone",
        numbers: [3, 4, 4, 0],
        flushes: vec![vec![0]],
        compacted: false,
        told: vec![
            // The single 0, 0, 0, 0: a member.
            (0, vec![[0, 0, 0, 0, 0, 0, 0, 0, 3, 0, 0, 0]]),
            // No record covers 1.
            (1, vec![[0, 0, 0, 0, 0, 0, 0, 0, 0, 0, 0, 0]]),
        ],
    }
}

/// The record 100, 6, 4, −50, then the single 103 over it.
fn strides() -> Why {
    Why {
        name: "on a stride, off it and beside it",
        numbers: [9, 64, 256, 0],
        flushes: vec![vec![100, 102, 104, 106], vec![103]],
        compacted: false,
        told: vec![
            // Below the single, which doesn't cover 101, a record that covers it has a
            // stride of two and begins at 100.
            (
                101,
                vec![
                    [0, 0, 0, 0, 0, 0, 0, 0, 0, 0, 0, 0],
                    [100, 6, 4, 0, 206, 255, 255, 255, 1, 0, 0, 0],
                ],
            ),
            // The single has 103, and the record below isn't asked.
            (103, vec![[103, 0, 0, 0, 64, 0, 0, 0, 3, 0, 0, 0]]),
            // 106 is the last on the stride.
            (
                106,
                vec![
                    [0, 0, 0, 0, 0, 0, 0, 0, 0, 0, 0, 0],
                    [100, 6, 4, 0, 206, 255, 255, 255, 3, 0, 0, 0],
                ],
            ),
            // 99 and 107 lie beside it.
            (99, vec![[0; 12]; 2]),
            (107, vec![[0; 12]; 2]),
        ],
    }
}

/// A stride of 200 has a word of two bytes, and so has a slope above one half.
fn words() -> Why {
    Why {
        name: "words of two bytes",
        numbers: [9, 64, 256, 1],
        flushes: vec![vec![50, 250], vec![1, 2, 4]],
        compacted: false,
        told: vec![
            // 400 is 1 × 256 + 144.
            (50, vec![[50, 200, 144, 1, 255, 255, 255, 255, 3, 0, 0, 0]]),
            (249, vec![[50, 200, 144, 1, 255, 255, 255, 255, 1, 0, 0, 0]]),
            // 259 is 1 × 256 + 3.
            (3, vec![[1, 3, 3, 1, 63, 0, 0, 0, 2, 0, 0, 0]]),
        ],
    }
}

/// The accurate record of 0 and 3 over the single 2 over the approximate record of 0, 2
/// and 3 over the single 1.
fn every_reason() -> Why {
    Why {
        name: "every reason in one listing",
        numbers: [5, 4, 4, 1],
        flushes: vec![vec![1], vec![0, 2, 3], vec![2], vec![0, 3]],
        compacted: false,
        told: vec![(
            1,
            vec![
                [0, 3, 6, 0, 12, 0, 0, 0, 1, 0, 0, 0],
                [0, 0, 0, 0, 0, 0, 0, 0, 0, 0, 0, 0],
                [0, 3, 173, 0, 4, 0, 0, 0, 2, 0, 0, 0],
                [1, 0, 0, 0, 0, 0, 0, 0, 3, 0, 0, 0],
            ],
        )],
    }
}

/// Document 01's script before its last flush. Level 0 has 16 to 31, the approximate
/// record of 72, 73, 80 and 200 to 255; level 1 has 0 to 63 and the approximate record
/// of 75, 78, 82.
fn script() -> Why {
    Why {
        name: "the script before its last flush",
        numbers: [9, 64, 256, 1],
        flushes: [
            &Vec::from_iter(0..=63)[..],
            &Vec::from_iter(200..=255),
            &Vec::from_iter(16..=31),
            &[75, 78, 82],
            &[72, 73, 80],
        ]
        .map(<[u32]>::to_vec)
        .to_vec(),
        compacted: false,
        told: vec![
            // The upper record covers 78 and doesn't own it: the owner starts at 75. It
            // is the one below, and has it.
            (
                78,
                vec![
                    [72, 8, 79, 0, 245, 0, 0, 0, 2, 1, 75, 0],
                    [75, 7, 89, 0, 179, 0, 0, 0, 3, 0, 0, 0],
                ],
            ),
            // Both cover 76, and nobody owns it: it was never written.
            (
                76,
                vec![
                    [72, 8, 79, 0, 245, 0, 0, 0, 2, 0, 0, 0],
                    [75, 7, 89, 0, 179, 0, 0, 0, 2, 0, 0, 0],
                ],
            ),
            // The upper one owns 80, and the lower one, which covers it, isn't asked.
            (80, vec![[72, 8, 79, 0, 245, 0, 0, 0, 3, 0, 0, 0]]),
            // Only the lower one covers 82.
            (
                82,
                vec![
                    [0, 0, 0, 0, 0, 0, 0, 0, 0, 0, 0, 0],
                    [75, 7, 89, 0, 179, 0, 0, 0, 3, 0, 0, 0],
                ],
            ),
            // 50 lies below 16 to 31 and above 72 to 80: 0 to 63 has it.
            (
                50,
                vec![
                    [0, 0, 0, 0, 0, 0, 0, 0, 0, 0, 0, 0],
                    [0, 63, 2, 0, 0, 0, 0, 0, 3, 0, 0, 0],
                ],
            ),
            // A negative intercept: −136.
            (255, vec![[200, 55, 2, 0, 120, 255, 255, 255, 3, 0, 0, 0]]),
            // No record covers 100 at either level.
            (100, vec![[0; 12]; 2]),
        ],
    }
}

/// The script with its last flush: 32 to 90 has all of both approximate records.
fn script_written_over() -> Why {
    let mut flushes = script().flushes;
    flushes.push((32..=90).collect());
    Why {
        name: "the script with its last flush",
        flushes,
        told: vec![
            // 78 is found at the top, by a record with an intercept of 288.
            (78, vec![[32, 58, 2, 0, 32, 1, 0, 0, 3, 0, 0, 0]]),
            // And so is 76 now.
            (76, vec![[32, 58, 2, 0, 32, 1, 0, 0, 3, 0, 0, 0]]),
        ],
        ..script()
    }
}

/// Three approximate records, one a level: 2, 6, 7 over 3, 4, 8 over what is left of 0,
/// 1, 4, 5, whose 4 was taken by 3, 4, 8.
fn taken() -> Why {
    Why {
        name: "an offset taken by a newer approximate record",
        numbers: [9, 4, 16, 1],
        flushes: vec![vec![0, 1, 4, 5], vec![3, 4, 8], vec![2, 6, 7]],
        compacted: false,
        told: vec![
            // The newest covers 4 and doesn't own it. The owner is the one that took it,
            // not the one that had it first, which isn't asked.
            (
                4,
                vec![
                    [2, 5, 149, 0, 7, 0, 0, 0, 2, 1, 3, 0],
                    [3, 5, 131, 0, 3, 0, 0, 0, 3, 0, 0, 0],
                ],
            ),
            // 5 wasn't taken: its owner lies under two that cover it. The 1 tells an
            // owner that starts at 0 from none.
            (
                5,
                vec![
                    [2, 5, 149, 0, 7, 0, 0, 0, 2, 1, 0, 0],
                    [3, 5, 131, 0, 3, 0, 0, 0, 2, 1, 0, 0],
                    [0, 5, 207, 0, 0, 0, 0, 0, 3, 0, 0, 0],
                ],
            ),
            // 8 is covered by its owner alone.
            (
                8,
                vec![
                    [0, 0, 0, 0, 0, 0, 0, 0, 0, 0, 0, 0],
                    [3, 5, 131, 0, 3, 0, 0, 0, 3, 0, 0, 0],
                ],
            ),
            // The newest has 7 itself.
            (7, vec![[2, 5, 149, 0, 7, 0, 0, 0, 3, 0, 0, 0]]),
            // 9 was never written.
            (9, vec![[0; 12]; 3]),
        ],
    }
}

/// The same, then the single 4, then 2, 6, 9, which leaves 7 to 2, 6, 7. Level 0 has 2,
/// 6, 9, level 1 the single 4 and 7, level 2 still 3, 4, 8, level 3 what is left of 0, 1,
/// 4, 5.
fn hidden() -> Why {
    let mut flushes = taken().flushes;
    flushes.extend([vec![4], vec![2, 6, 9]]);
    Why {
        name: "an owner that is hidden by an exact record",
        flushes,
        told: vec![
            // The newest covers 4 and doesn't own it. The owner starts at 3, two levels
            // below; the member is the single between, and the owner isn't reached.
            (
                4,
                vec![
                    [2, 7, 115, 0, 15, 0, 0, 0, 2, 1, 3, 0],
                    [4, 0, 0, 0, 12, 0, 0, 0, 3, 0, 0, 0],
                ],
            ),
            // The record of 7 alone has shrunk and keeps its word and its intercept.
            (
                7,
                vec![
                    [2, 7, 115, 0, 15, 0, 0, 0, 2, 1, 7, 0],
                    [7, 0, 149, 0, 7, 0, 0, 0, 3, 0, 0, 0],
                ],
            ),
            // Both reasons above a member.
            (
                5,
                vec![
                    [2, 7, 115, 0, 15, 0, 0, 0, 2, 1, 0, 0],
                    [0, 0, 0, 0, 0, 0, 0, 0, 0, 0, 0, 0],
                    [3, 5, 131, 0, 3, 0, 0, 0, 2, 1, 0, 0],
                    [0, 5, 207, 0, 0, 0, 0, 0, 3, 0, 0, 0],
                ],
            ),
        ],
        ..taken()
    }
}

/// The same compacted: 3, 4, 8 loses 4 to the single above, and no record moves.
fn hidden_and_compacted() -> Why {
    Why {
        name: "a compaction leaves nobody to own what is hidden",
        compacted: true,
        told: vec![
            // Nobody owns 4 any more; lookup's answer is what it was.
            (
                4,
                vec![
                    [2, 7, 115, 0, 15, 0, 0, 0, 2, 0, 0, 0],
                    [4, 0, 0, 0, 12, 0, 0, 0, 3, 0, 0, 0],
                ],
            ),
        ],
        ..hidden()
    }
}
