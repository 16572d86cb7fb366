//! Ways to make a sound group unsound.

use std::collections::BTreeSet;

use crate::levels::Group;
use crate::record::{Kind, Record};

/// A way to make a sound group unsound.
#[derive(Clone, Copy, Debug)]
pub struct Spoiler {
    /// The clause that is broken.
    pub clause: &'static str,
    /// Breaks it, whatever the group holds.
    pub spoil: fn(&mut Group, last: u8),
}

/// At least one way to break each clause of 'a group is sound if'. Each replaces
/// or extends the group so that it breaks its clause and, where a clause can be
/// broken alone, no other.
pub const SPOILERS: &[Spoiler] = &[
    Spoiler {
        clause: "at most 512 records",
        spoil: |group, _| {
            group.levels = vec![vec![single(0)]; 513];
        },
    },
    Spoiler {
        clause: "no empty level (below)",
        spoil: |group, _| group.levels.push(Vec::new()),
    },
    Spoiler {
        clause: "no empty level (level 0)",
        spoil: |group, _| group.levels.insert(0, Vec::new()),
    },
    Spoiler {
        clause: "S + L at most 255",
        spoil: |group, last| group.levels = vec![vec![accurate(last, 255, 1)]],
    },
    Spoiler {
        clause: "S + L inside N",
        spoil: |group, last| {
            group.levels = match last.checked_add(1) {
                Some(beyond) => vec![vec![single(beyond)]],
                None => vec![vec![accurate(last, 1, 1)]],
            };
        },
    },
    Spoiler {
        clause: "words as tabled (an even one)",
        spoil: |group, _| group.levels.push(vec![with_word(512, single(0))]),
    },
    Spoiler {
        clause: "words as tabled (an odd one)",
        spoil: |group, _| group.levels = vec![vec![with_word(515, owner(&[0]))]],
    },
    Spoiler {
        clause: "words as tabled (the largest)",
        spoil: |group, _| group.levels = vec![vec![with_word(u16::MAX, owner(&[0]))]],
    },
    Spoiler {
        clause: "single, L = 0",
        spoil: |group, _| {
            let span = 1;
            group.levels.push(vec![Record { span, ..single(0) }]);
        },
    },
    Spoiler {
        clause: "L a multiple of d",
        spoil: |group, _| group.levels.push(vec![accurate(0, 1, 2)]),
    },
    Spoiler {
        clause: "records ascend",
        spoil: |group, last| group.levels.push(vec![single(last), single(0)]),
    },
    Spoiler {
        clause: "ranges don't meet",
        spoil: |group, last| {
            let whole = accurate(0, last, 1);
            group.levels.push(vec![whole, single(last)]);
        },
    },
    Spoiler {
        clause: "an offset owned by two",
        spoil: |group, _| {
            group.levels = vec![vec![owner(&[0])], vec![owner(&[0])]];
        },
    },
    Spoiler {
        clause: "an owned offset below the record",
        spoil: |group, last| {
            let (start, span) = (last, 0);
            let owns = owner(&[0, last]);
            // Where the only offset is 0, the record owns its start alone but
            // claims a longer range.
            let span = if last == 0 { 1 } else { span };
            group.levels = vec![vec![Record {
                start,
                span,
                ..owns
            }]];
        },
    },
    Spoiler {
        clause: "an owned offset above the record",
        spoil: |group, last| {
            let beyond = if last == 0 { 1 } else { last };
            let span = 0;
            let owns = owner(&[0, beyond]);
            group.levels = vec![vec![Record { span, ..owns }]];
        },
    },
    Spoiler {
        clause: "S is the first member",
        spoil: |group, last| {
            let record = Record {
                start: 0,
                span: last,
                ..owner(&[last.max(1)])
            };
            group.levels = vec![vec![record]];
        },
    },
    Spoiler {
        clause: "S + L is the last member",
        spoil: |group, last| {
            let span = last.max(1);
            group.levels = vec![vec![Record {
                span,
                ..owner(&[0])
            }]];
        },
    },
    Spoiler {
        clause: "an approximate record owns an offset",
        spoil: |group, _| {
            let owns = BTreeSet::new();
            group.levels.push(vec![Record {
                owns,
                ..owner(&[0])
            }]);
        },
    },
    Spoiler {
        clause: "only approximate records own",
        spoil: |group, _| {
            let owns = BTreeSet::from([0]);
            group.levels = vec![vec![Record { owns, ..single(0) }]];
        },
    },
    Spoiler {
        clause: "an owner that is no approximate record of the group",
        spoil: |group, last| {
            group.strays.insert(last);
        },
    },
];

fn single(start: u8) -> Record {
    Record::exact(start, 0, Kind::Single, 0)
}

fn accurate(start: u8, span: u8, stride: u8) -> Record {
    Record::exact(start, span, Kind::Accurate { stride }, 0)
}

fn with_word(word: u16, record: Record) -> Record {
    Record { word, ..record }
}

fn owner(offsets: &[u8]) -> Record {
    Record::approximate(1, 0, offsets.iter().copied().collect())
}
