//! The kinds of groups that are measured.

use std::collections::BTreeSet;

use hedjosur_conformance::inputs::all_offsets;
use hedjosur_model::levels::Group;
use hedjosur_model::record::{self, Record};
use hedjosur_model::testing::{any_record, Random};

/// A kind of sound groups: its name in the table, and what makes one.
pub type Kind = (&'static str, fn(&mut Random) -> Group);

/// Groups of several sizes that hold records of all kinds.
pub const MIXED: [Kind; 4] = [
    ("1 record", |random| mixed(random, 1)),
    ("8 records", |random| mixed(random, 8)),
    ("64 records", |random| mixed(random, 64)),
    ("512 records", |random| mixed(random, 512)),
];

/// As the last of these, with room for one record.
const NEARLY_FULL: Kind = ("511 records", |random| mixed(random, 511));

/// As many levels as a group can have.
pub const DEEP: Kind = ("512 records, deep", deep);

/// As the last of the mixed ones, with one offset that no record has and many cover.
pub const GAPPED: Kind = ("512 records", |random| {
    filled(random, 512, |record| !record.has(128))
});

/// Groups of other shapes.
const SHAPED: [Kind; 3] = [
    ("256 records, flat", flat),
    ("10 records, 2 approximate", |random| few_own(random, 2)),
    ("11 records, 3 approximate", |random| few_own(random, 3)),
];

/// All kinds.
pub fn all() -> impl Iterator<Item = Kind> {
    MIXED.into_iter().chain([DEEP]).chain(SHAPED)
}

/// All kinds that have room for a record.
pub fn with_room() -> impl Iterator<Item = Kind> {
    let [small @ .., _] = MIXED;
    small.into_iter().chain([NEARLY_FULL]).chain(SHAPED)
}

/// A group that many records have been inserted into.
pub fn crowded(random: &mut Random) -> Group {
    mixed(random, 256)
}

/// Levels of records of all kinds, until there are so many.
fn mixed(random: &mut Random, size: usize) -> Group {
    filled(random, size, |_| true)
}

/// Levels of records of all kinds that a condition holds for, until there are so many.
fn filled(random: &mut Random, size: usize, holds: impl Fn(&Record) -> bool) -> Group {
    let mut group = Group::default();
    let mut unowned = all_offsets();
    while group.size() < size {
        let mut level = Vec::new();
        let mut next = random.below(8);
        while next <= 255 && group.size() + level.len() < size {
            let record = any_record(random, next as u8, 255, &unowned);
            if !holds(&record) {
                next += 1;
                continue;
            }
            unowned = &unowned - &record.owns;
            next = record.last() + random.between(1, 8);
            level.push(record);
        }
        group.levels.push(level);
    }
    group
}

/// A single for each offset.
fn flat(random: &mut Random) -> Group {
    of_levels(vec![(0..=255)
        .map(|offset| exact(random, offset, 1, 0))
        .collect()])
}

/// Levels of one accurate record each.
fn deep(random: &mut Random) -> Group {
    let levels = (0..512).map(|_| {
        let (start, stride) = (random.below(200) as u8, random.between(1, 3) as u8);
        let more = random.between(1, 15) as u8;
        vec![exact(random, start, stride, more)]
    });
    of_levels(levels.collect())
}

/// A level of eight accurate records over one of approximate ones, which share all
/// offsets.
fn few_own(random: &mut Random, count: u32) -> Group {
    let accurate = (0..8).map(|at| exact(random, 32 * at, 1, 9)).collect();
    let mut approximate = Vec::new();
    for at in 0..count {
        let range = 256 * at / count..256 * (at + 1) / count;
        let owns: BTreeSet<u8> = range.map(|offset| offset as u8).collect();
        let slope = random.below(257) as u16;
        approximate.push(Record::approximate(slope, intercept(random), owns));
    }
    of_levels(vec![accurate, approximate])
}

fn of_levels(levels: Vec<Vec<Record>>) -> Group {
    Group {
        levels,
        ..Group::default()
    }
}

/// A single, or an accurate record of this stride and so many more members.
fn exact(random: &mut Random, start: u8, stride: u8, more: u8) -> Record {
    let kind = match more {
        0 => record::Kind::Single,
        _ => record::Kind::Accurate { stride },
    };
    Record::exact(start, stride * more, kind, intercept(random))
}

/// An intercept that predicts pages of a small device, mostly.
fn intercept(random: &mut Random) -> i32 {
    random.below(500) as i32
}
