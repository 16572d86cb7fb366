//! Document 01's cases and its script, as calls and what they answer since
//! request b of document 02, and cases of telling why.

mod why;

pub use why::{whys, Why};

use crate::ops::{Collected, Flushed, Lookup, Refusal};
use crate::script::{Answer, Line, Listed};

/// Document 01's script.
pub const SCRIPT: &str = include_str!("../data/script.txt");

/// The listing that it gives for its script.
pub const LISTING: &str = include_str!("../data/listing.txt");

/// A case: calls from a format on, each with its answer.
#[derive(Clone, Debug)]
pub struct Case {
    /// What it shows.
    pub name: &'static str,
    /// The calls.
    pub calls: Vec<(Line, Answer)>,
}

/// All cases: those of learning, as calls, and the others.
pub fn cases() -> Vec<Case> {
    let learned = LEARNING.iter().map(Learning::case);
    let others = [limits(), repeats(), full_device(), script()];
    learned.chain(others).collect()
}

/// A case of learning: a sorted batch and its records.
#[derive(Clone, Copy, Debug)]
pub struct Learning {
    /// What it shows.
    pub name: &'static str,
    /// g.
    pub bound: u32,
    /// The first page that is written, 0 or 64.
    pub first: u32,
    /// The batch.
    pub batch: &'static [u32],
    /// The predicted page of each logical page of the batch.
    pub predictions: &'static [u32],
    /// The records, as group, S, L, word, I.
    pub records: &'static [Listed],
}

/// The cases of learning.
pub const LEARNING: &[Learning] = &[
    Learning {
        name: "a stride of two from page 0",
        bound: 0,
        first: 0,
        batch: &[100, 102, 104, 106],
        predictions: &[0, 1, 2, 3],
        records: &[(0, 100, 6, 4, -50)],
    },
    Learning {
        name: "an odd start is rounded up",
        bound: 0,
        first: 64,
        batch: &[101, 103],
        predictions: &[64, 65],
        records: &[(0, 101, 2, 4, 13)],
    },
    Learning {
        name: "an approximate run and its predictions",
        bound: 1,
        first: 64,
        batch: &[0, 1, 4, 5],
        predictions: &[64, 65, 66, 67],
        records: &[(0, 0, 5, 207, 64)],
    },
    Learning {
        name: "the same with bound 0",
        bound: 0,
        first: 64,
        batch: &[0, 1, 4, 5],
        predictions: &[64, 65, 66, 67],
        records: &[(0, 0, 1, 2, 64), (0, 4, 1, 2, 62)],
    },
    // Further cases of the choice among the longest approximate runs.
    Learning {
        name: "the fewest wrong, though a smaller slope suits",
        bound: 1,
        first: 64,
        batch: &[1, 2, 6],
        predictions: &[65, 65, 66],
        records: &[(0, 1, 5, 87, 64)],
    },
    Learning {
        name: "of two intercepts with as many wrong the smaller",
        bound: 1,
        first: 64,
        batch: &[91, 181, 190, 199],
        predictions: &[64, 65, 65, 66],
        records: &[(0, 91, 108, 9, 62)],
    },
    Learning {
        name: "no prediction outside the flush, though fewer were wrong",
        bound: 3,
        first: 64,
        batch: &[1, 2, 4, 12],
        predictions: &[66, 66, 66, 67],
        records: &[(0, 1, 11, 45, 65)],
    },
    // The document names no bound here.
    TWO_GROUPS,
    Learning {
        bound: 1,
        ..TWO_GROUPS
    },
    Learning {
        bound: 15,
        ..TWO_GROUPS
    },
];

const TWO_GROUPS: Learning = Learning {
    name: "runs stay inside one group",
    bound: 0,
    first: 0,
    batch: &[255, 256],
    predictions: &[0, 1],
    records: &[(0, 255, 0, 0, 0), (1, 0, 0, 0, 1)],
};

impl Learning {
    /// The calls: the batch is flushed, both groups are listed, each logical page
    /// is looked up. A flush of the last logical page, in group 1, comes before
    /// where the batch doesn't start at page 0.
    fn case(&self) -> Case {
        let mut calls = vec![format([17, 64, 512, self.bound])];
        let mut groups = [Vec::new(), Vec::new()];
        if self.first == 64 {
            calls.push(flush(&[511], 0, &[0]));
            groups[1].push((0, 255, 0, 0, 0));
        }
        let arrivals: Vec<u32> = (0..).take(self.batch.len()).collect();
        calls.push(flush(self.batch, self.first, &arrivals));
        for &(group, start, span, word, intercept) in self.records {
            groups[group].push((0, start, span, word, intercept));
        }
        for (number, group) in (0..).zip(groups) {
            calls.push((Line::List(number), Answer::Listed(group)));
        }
        let pages = self.batch.iter().zip(self.predictions).zip(self.first..);
        calls
            .extend(pages.map(|((&logical, &predicted), page)| found(logical, page, predicted, 1)));
        let name = self.name;
        Case { name, calls }
    }
}

/// 'M 3, B 4, g 0: N 4 accepted, N 5 refused 1. g 15 accepted, 16 refused 1 (M 9,
/// B 64, N 256)', and the other limits of the device numbers.
fn limits() -> Case {
    let accepted = [
        [3, 4, 4, 0],
        [9, 64, 256, 15],
        [3, 4, 1, 0],
        [3, 256, 256, 15],
        [4096, 256, 524_160, 0],
    ];
    let refused = [
        [3, 4, 5, 0],
        [9, 64, 256, 16],
        [2, 4, 1, 0],
        [4097, 4, 1, 0],
        [3, 3, 1, 0],
        [3, 257, 1, 0],
        [3, 4, 0, 0],
        [4096, 256, 524_161, 0],
        [3, 4, 2_147_483_648, 0],
        [u32::MAX; 4],
        [0; 4],
    ];
    let refused = refused.map(|numbers| (Line::Format(numbers), REFUSED_1));
    Case {
        name: "limits of the device numbers",
        calls: accepted.map(format).into_iter().chain(refused).collect(),
    }
}

const REFUSED_1: Answer = Answer::Refused(Refusal::BadNumbers);

/// 'Batch 7, 7: one page, plan entry 1.'
fn repeats() -> Case {
    Case {
        name: "repeats keep their last arrival",
        calls: vec![
            format([9, 64, 256, 1]),
            flush(&[7, 7], 0, &[1]),
            found(7, 0, 0, 1),
        ],
    }
}

/// 'M 3, B 4, N 4, g 0: flush 0, flush 0, a third refused 6; collection erases 0,
/// 1, copies page 4 to 8; lookup 0 gives page 8.'
fn full_device() -> Case {
    let refused = Answer::Refused(Refusal::NoFreeBlock);
    let collected = Collected {
        first: 8,
        count: 1,
        erased: 2,
    };
    let lists = [vec![4], vec![0, 1]];
    Case {
        name: "a full device is collected",
        calls: vec![
            format([3, 4, 4, 0]),
            flush(&[0], 0, &[0]),
            flush(&[0], 4, &[0]),
            (Line::Flush(vec![0]), refused),
            (Line::Collection, Answer::Collected(collected, lists)),
            found(0, 8, 8, 1),
            flush(&[0], 0, &[0]),
        ],
    }
}

/// The script with what the document says of its lookups and its listing.
fn script() -> Case {
    let ascending = |from, to, first| {
        let batch: Vec<u32> = (from..=to).collect();
        let arrivals: Vec<u32> = (0..).take(batch.len()).collect();
        flush(&batch, first, &arrivals)
    };
    let not_written = Lookup::NotWritten { levels: 2 };
    Case {
        name: "the script",
        calls: vec![
            format([9, 64, 256, 1]),
            ascending(0, 63, 0),
            ascending(200, 255, 64),
            ascending(16, 31, 128),
            flush(&[75, 78, 82], 192, &[0, 1, 2]),
            flush(&[72, 73, 80], 256, &[0, 1, 2]),
            found(50, 50, 50, 2),
            found(78, 193, 193, 2),
            found(82, 194, 194, 2),
            (Line::Lookup(100), Answer::Lookup(not_written)),
            ascending(32, 90, 320),
            found(78, 366, 366, 1),
            (Line::Compaction(0), Answer::Compacted(4)),
            (Line::List(0), Answer::Listed(listed())),
        ],
    }
}

/// The records of the document's listing.
fn listed() -> Vec<Listed> {
    let record = |line: &str| {
        let mut numbers = line.split_whitespace();
        let mut next = || numbers.next()?.parse::<i32>().ok();
        let [level, start, span, word] = [next()?, next()?, next()?, next()?];
        Some((
            level as usize,
            start as u8,
            span as u8,
            word as u16,
            next()?,
        ))
    };
    let records: Option<Vec<Listed>> = LISTING.lines().skip(1).map(record).collect();
    records.expect("five numbers a line")
}

/// An accepted format.
fn format(numbers: [u32; 4]) -> (Line, Answer) {
    (Line::Format(numbers), Answer::Formatted)
}

/// An accepted flush: its first page, and the arrival index of each page.
fn flush(batch: &[u32], first: u32, plan: &[u32]) -> (Line, Answer) {
    let count = plan.len() as u32;
    let flushed = Flushed { first, count };
    let answer = Answer::Flushed(flushed, plan.to_vec());
    (Line::Flush(batch.to_vec()), answer)
}

/// A lookup of a logical page that was written.
fn found(logical_page: u32, page: u32, predicted: u32, levels: usize) -> (Line, Answer) {
    let found = Lookup::Found {
        page,
        predicted,
        levels,
    };
    (Line::Lookup(logical_page), Answer::Lookup(found))
}
