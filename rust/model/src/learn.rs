//! Learning a batch.

use std::cmp::Reverse;
use std::collections::{BTreeMap, BTreeSet};
use std::ops::RangeInclusive;

use crate::device::{group_of, offset_of};
use crate::record::{Kind, Record};

/// 'Repeated logical pages keep their last arrival. The rest are sorted': each
/// logical page of the batch with the index of its last arrival, ascending.
pub fn last_arrivals(batch: &[u32]) -> BTreeMap<u32, u32> {
    (0..)
        .zip(batch)
        .map(|(arrival, &logical_page)| (logical_page, arrival))
        .collect()
}

/// A learned record and the group it belongs to.
#[derive(Clone, Debug, PartialEq, Eq)]
pub struct Learned {
    /// The group's number.
    pub group: usize,
    /// The record.
    pub record: Record,
}

/// One logical page of the batch: its offset and the page it was put on.
#[derive(Clone, Copy, Debug)]
struct Placed {
    offset: u8,
    page: i64,
}

/// A run from the left of what remains: how many it takes, and its record.
struct Run {
    length: usize,
    record: Record,
}

/// The records of a sorted batch put on consecutive pages from `first`: 'runs
/// are taken from the left and stay inside one group'; 'the learned records are
/// handed to the table as one list, in ascending order'.
pub fn learn(bound: u32, first: u32, sorted: &[u32]) -> Vec<Learned> {
    let placed: Vec<(usize, Placed)> = sorted
        .iter()
        .zip(i64::from(first)..)
        .map(|(&logical_page, page)| {
            let offset = offset_of(logical_page);
            (group_of(logical_page), Placed { offset, page })
        })
        .collect();
    let written = i64::from(first)..=i64::from(first) + sorted.len() as i64 - 1;

    let mut learned = Vec::new();
    let mut taken = 0;
    while taken < placed.len() {
        let group = placed[taken].0;
        let rest: Vec<Placed> = placed[taken..]
            .iter()
            .take_while(|(of, _)| *of == group)
            .map(|&(_, place)| place)
            .collect();
        let run = choose(bound, &written, &rest);
        taken += run.length;
        let record = run.record;
        learned.push(Learned { group, record });
    }
    learned
}

/// 'The longest approximate run is taken if it is longer than the accurate one,
/// otherwise the accurate one.'
fn choose(bound: u32, written: &RangeInclusive<i64>, rest: &[Placed]) -> Run {
    let accurate = accurate_run(rest);
    match approximate_run(bound, written, rest) {
        Some(approximate) if approximate.length > accurate.length => approximate,
        _ => accurate,
    }
}

/// 'The accurate run goes on while the stride of its first two holds; one page
/// alone is a single. I is the first page less (S / d rounded up).'
fn accurate_run(rest: &[Placed]) -> Run {
    let first = rest[0];
    let (length, kind) = match rest.get(1) {
        None => (1, Kind::Single),
        Some(second) => {
            let stride = second.offset - first.offset;
            let holding = rest
                .windows(2)
                .take_while(|pair| pair[1].offset - pair[0].offset == stride)
                .count();
            (holding + 1, Kind::Accurate { stride })
        }
    };
    let span = rest[length - 1].offset - first.offset;
    let intercept = intercept(first.page - kind.rise(first.offset));
    Run {
        length,
        record: Record::exact(first.offset, span, kind, intercept),
    }
}

/// 'If g is at least 1': 'among the longest approximate runs the one with fewest
/// wrong predictions is now taken, ties as before', which is 'smallest a, then
/// smallest I'.
fn approximate_run(bound: u32, written: &RangeInclusive<i64>, rest: &[Placed]) -> Option<Run> {
    if bound == 0 {
        return None;
    }
    let runs = (0..=256).flat_map(|slope| {
        let (length, suitable) = longest(slope, bound, written, rest);
        suitable.map(move |number| {
            let wrong = wrong_predictions(slope, number, &rest[..length]);
            (Reverse(length), wrong, slope, number)
        })
    });
    runs.min().map(|(Reverse(length), _, slope, number)| {
        let owns: BTreeSet<u8> = rest[..length].iter().map(|place| place.offset).collect();
        Run {
            length,
            record: Record::approximate(slope, intercept(number), owns),
        }
    })
}

/// The longest run of one slope, and the intercepts that suit it. The intercepts
/// that suit a run are those that suit each of its members, so a longer run has
/// fewer; the run ends before they are none.
fn longest(
    slope: u16,
    bound: u32,
    written: &RangeInclusive<i64>,
    rest: &[Placed],
) -> (usize, RangeInclusive<i64>) {
    let mut suitable = suitable_intercepts(slope, bound, written, rest[0]);
    let mut length = 1;
    while let Some(&next) = rest.get(length) {
        let wider = both(&suitable, &suitable_intercepts(slope, bound, written, next));
        if wider.is_empty() {
            break;
        }
        suitable = wider;
        length += 1;
    }
    (length, suitable)
}

/// How many members of a run are predicted on another page than their own.
fn wrong_predictions(slope: u16, intercept: i64, run: &[Placed]) -> usize {
    let rise = |offset| Kind::Approximate { slope }.rise(offset);
    run.iter()
        .filter(|member| intercept + rise(member.offset) != member.page)
        .count()
}

/// The intercepts for which one member's prediction is 'within g of its page
/// and on a page that this flush wrote'.
fn suitable_intercepts(
    slope: u16,
    bound: u32,
    written: &RangeInclusive<i64>,
    member: Placed,
) -> RangeInclusive<i64> {
    let within = member.page - i64::from(bound)..=member.page + i64::from(bound);
    let predictions = both(&within, written);
    let rise = Kind::Approximate { slope }.rise(member.offset);
    predictions.start() - rise..=predictions.end() - rise
}

/// The numbers in both ranges.
fn both(one: &RangeInclusive<i64>, other: &RangeInclusive<i64>) -> RangeInclusive<i64> {
    *one.start().max(other.start())..=*one.end().min(other.end())
}

/// An intercept as a record keeps it; those of a device always fit.
fn intercept(number: i64) -> i32 {
    i32::try_from(number).expect("an intercept fits 32 bits")
}
