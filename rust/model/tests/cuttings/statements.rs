//! Statements slightly stronger than request i that one is tempted to believe, each with
//! its counterexample on a small device. Where a test searches, no smaller batch is one:
//! none of fewer pages, and none of as many with a smaller last page.

use std::iter::successors;

use hedjosur_model::levels::Group;
use hedjosur_model::ops::{self, Lookup};
use hedjosur_model::record::{Kind, Record};
use hedjosur_model::testing::World;

use crate::judge::{Batch, Part};
use crate::learned;
use crate::lists::cutting_of;
use crate::runs::Runs;

/// The batch of several counterexamples: with bound 1 it needs two records, and the least
/// help would save one.
const FIVE: [u32; 5] = [1, 2, 3, 4, 16];

/// A batch on the first pages of a device.
fn batch(bound: u32, sorted: &[u32]) -> Batch {
    Batch {
        bound,
        first: 0,
        sorted: sorted.to_vec(),
    }
}

/// How many records are learned from it.
fn records(bound: u32, sorted: &[u32]) -> usize {
    learned(&batch(bound, sorted)).len()
}

/// How many records group 0 holds after these flushes on a device of M, B, N and g.
fn held(numbers: [u32; 4], batches: &[&[u32]]) -> usize {
    size(&World::flushed(numbers, batches))
}

fn size(world: &World) -> usize {
    let group = ops::list(&world.lent, 0).expect("a sound group");
    group.size()
}

/// The smallest batch that refutes a statement, of at most so many logical pages below a
/// limit.
fn smallest(most: u32, limit: u32, refutes: impl Fn(&[u32]) -> bool) -> Option<Vec<u32>> {
    let mut batches = (1..=most).flat_map(|count| choices(count, limit));
    batches.find(|sorted| refutes(sorted))
}

/// Every choice of so many logical pages below a limit, that with the smallest last page
/// first: a bit for each page, and each number of so many bits after the other.
fn choices(count: u32, limit: u32) -> impl Iterator<Item = Vec<u32>> {
    let first = (1u64 << count) - 1;
    let all = successors(Some(first), |bits| {
        let lowest = bits & bits.wrapping_neg();
        let carried = bits + lowest;
        Some(carried | ((bits ^ carried) / lowest) >> 2)
    });
    all.take_while(move |&bits| bits < 1 << limit)
        .map(move |bits| (0..limit).filter(|page| bits >> page & 1 == 1).collect())
}

/// A batch without one of its pages, in every way.
fn one_less(sorted: &[u32]) -> impl Iterator<Item = Vec<u32>> + '_ {
    (0..sorted.len()).map(|place| [&sorted[..place], &sorted[place + 1..]].concat())
}

/// All cuttings of a batch that are as short as any.
fn shortest(batch: &Batch) -> Vec<Vec<Part>> {
    let runs = Runs::of(batch);
    let least = runs.least(&batch.places());
    let cuttings = runs.cuttings();
    cuttings.filter(|cutting| cutting.len() == least).collect()
}

/// 'The learned cutting is the only one that is so short.' Its runs may also end earlier:
/// the first of 0, 1, 3 may be 0 alone.
#[test]
fn another_cutting_may_be_as_short() {
    let refutes = |sorted: &[u32]| shortest(&batch(0, sorted)).len() > 1;
    let three = [0, 1, 3];
    assert_eq!(smallest(3, 4, refutes), Some(three.to_vec()));
    let learned = cutting_of(&batch(0, &three), &learned(&batch(0, &three)));
    assert_eq!(learned, Ok(vec![0..2, 2..3]));
    assert_eq!(shortest(&batch(0, &three)), [[0..1, 1..3], [0..2, 2..3]]);
    assert_eq!(held([3, 4, 4, 0], &[&three]), 2);
}

/// 'Fewer pages never need more records.'
#[test]
fn a_page_less_may_need_a_record_more() {
    let refutes =
        |sorted: &[u32]| one_less(sorted).any(|less| records(0, &less) > records(0, sorted));
    assert_eq!(smallest(4, 4, refutes), Some(vec![0, 1, 2, 3]));
    assert_eq!(held([3, 4, 4, 0], &[&[0, 1, 2, 3]]), 1);
    assert_eq!(held([3, 4, 4, 0], &[&[0, 1, 3]]), 2);
}

/// 'A page more needs at most a record more.'
#[test]
fn a_page_more_may_need_two_records_more() {
    let refutes =
        |sorted: &[u32]| one_less(sorted).any(|less| records(0, &less) + 1 < records(0, sorted));
    assert_eq!(smallest(5, 7, refutes), Some(vec![0, 2, 3, 4, 6]));
    assert_eq!(held([3, 7, 7, 0], &[&[0, 2, 4, 6]]), 1);
    assert_eq!(held([3, 7, 7, 0], &[&[0, 2, 3, 4, 6]]), 3);
}

/// 'Two flushes never learn fewer records than one of all their pages.' It is a law where
/// one takes the pages before a place and the other those after it.
#[test]
fn two_flushes_may_learn_fewer_records_than_one() {
    let refutes = |sorted: &[u32]| {
        let mut sides = 0..1u32 << sorted.len();
        sides.any(|side| {
            let (one, other): (Vec<_>, Vec<_>) = (0..)
                .zip(sorted)
                .partition(|(place, _)| side >> place & 1 == 1);
            let learned = [one, other].map(|flush| {
                let sorted = Vec::from_iter(flush.into_iter().map(|(_, &page)| page));
                records(0, &sorted)
            });
            learned[0] + learned[1] < records(0, sorted)
        })
    };
    assert_eq!(smallest(5, 7, refutes), Some(vec![0, 1, 3, 4, 6]));
    assert_eq!(held([3, 7, 7, 0], &[&[0, 1, 3, 4, 6]]), 3);
    assert_eq!(held([3, 7, 7, 0], &[&[1, 4], &[0, 3, 6]]), 2);
}

/// 'To take the longest run anywhere first, and so on with what is left, is as short.' With
/// bound 1 any four pages are a run, so seven are the fewest that have a longer one with
/// pages on both sides: here 43 to 47.
#[test]
fn the_longest_run_first_may_give_more_records() {
    fn longest_first(runs: &Runs, places: Part) -> Vec<Part> {
        let mut parts = (1..=places.len()).rev().flat_map(|length| {
            let starts = places.start..=places.end - length;
            starts.map(move |from| from..from + length)
        });
        let Some(longest) = parts.find(|part| runs.has(part)) else {
            return vec![];
        };
        let left = longest_first(runs, places.start..longest.start);
        let right = longest_first(runs, longest.end..places.end);
        [left, vec![longest], right].concat()
    }
    let seven = [0, 43, 44, 45, 46, 47, 58];
    let cutting = longest_first(&Runs::of(&batch(1, &seven)), 0..7);
    assert_eq!(cutting, [0..1, 1..6, 6..7]);
    assert_eq!(held([3, 59, 59, 1], &[&seven]), 2);
}

/// 'Of the shortest cuttings the learned one has the fewest wrong predictions.' They are
/// the fewest for its own runs: 1, 2, 3, 6 has a wrong one, while 1, 2, 3 and 6, 24, which
/// bound 0 learns, have none.
#[test]
fn a_cutting_as_short_may_have_fewer_wrong_predictions() {
    let refutes =
        |sorted: &[u32]| records(0, sorted) == records(1, sorted) && second_reads(1, sorted) > 0;
    let five = [1, 2, 3, 6, 24];
    assert_eq!(smallest(5, 25, refutes), Some(five.to_vec()));
    assert_eq!(
        [0, 1].map(|bound| held([3, 25, 25, bound], &[&five])),
        [2, 2]
    );
    assert_eq!([0, 1].map(|bound| second_reads(bound, &five)), [0, 1]);
}

/// How many logical pages below 25 are read twice after a flush.
fn second_reads(bound: u32, sorted: &[u32]) -> usize {
    let world = World::flushed([3, 25, 25, bound], &[sorted]);
    let answers = sorted
        .iter()
        .map(|&logical_page| world.lookup(logical_page));
    let twice = answers.filter(|answer| match answer {
        Ok(Lookup::Found {
            page, predicted, ..
        }) => page != predicted,
        _ => false,
    });
    twice.count()
}

/// 'What else a flush writes is nothing to a group's records.' A page behind the others is
/// one more to predict on, whether it is of the same group or of the next.
#[test]
fn a_page_more_behind_may_save_a_record() {
    let with = |sorted: &[u32], more: u32| [sorted, &[more]].concat();
    let refutes = |sorted: &[u32]| records(1, &with(sorted, 256)) <= records(1, sorted);
    assert_eq!(smallest(5, 17, refutes), Some(FIVE.to_vec()));
    assert_eq!(held([87, 6, 257, 1], &[&FIVE]), 2);
    assert_eq!(held([87, 6, 257, 1], &[&with(&FIVE, 256)]), 1);
    assert_eq!(held([87, 6, 257, 1], &[&with(&FIVE, 17)]), 1);
}

/// 'To predict on any page, not only on those of the flush, would save no record.' Slope 65
/// has the page behind the last one for 16, and is within 1 everywhere.
#[test]
fn predictions_outside_the_flush_would_save_a_record() {
    let five = batch(1, &FIVE);
    let predicted = Vec::from_iter(five.places().map(|place| five.predicted(65, 0, place)));
    assert_eq!(predicted, [1, 1, 1, 2, 5]);
    assert_eq!(five.written(), 0..5);
    assert_eq!(held([3, 17, 17, 1], &[&FIVE]), 2);
}

/// 'Where in its group a batch lies is nothing to its records.' Predictions are rounded up
/// from offset 0 on: a page further down, the same steps need one record less.
#[test]
fn the_same_steps_elsewhere_may_need_fewer_records() {
    let further_down = |sorted: &[u32]| Vec::from_iter(sorted.iter().map(|page| page - 1));
    let refutes =
        |sorted: &[u32]| sorted[0] > 0 && records(1, &further_down(sorted)) < records(1, sorted);
    assert_eq!(smallest(5, 17, refutes), Some(FIVE.to_vec()));
    assert_eq!(held([3, 17, 17, 1], &[&FIVE]), 2);
    assert_eq!(held([3, 17, 17, 1], &[&[0, 1, 2, 3, 15]]), 1);
}

/// 'Slopes finer than 1 / 256 would save no record.' 47 / 512 would.
#[test]
fn finer_slopes_would_save_a_record() {
    let five = batch(1, &[1, 2, 3, 11, 43]);
    let finer = |place| (47 * five.offset(place) + 511) / 512;
    let predicted = Vec::from_iter(five.places().map(finer));
    assert_eq!(predicted, [1, 1, 1, 2, 4]);
    assert!(!five.is_run(&five.places()));
    assert_eq!(held([3, 44, 44, 1], &[&five.sorted]), 2);
}

/// 'A group holds as few records as could hold it.' Each flush's list is as short as any,
/// but not even a compaction makes one record of two: 0, 4, 2, 0 alone would answer every
/// lookup alike.
#[test]
fn a_group_may_hold_more_records_than_it_needs() {
    let world = World::flushed([4, 4, 5, 0], &[&[0, 1, 2, 3], &[4]]).compacted();
    assert_eq!(size(&world), 2);
    let mut other = world.clone();
    let all = Record::exact(0, 4, Kind::Accurate { stride: 1 }, 0);
    let group = &mut other.state_mut().groups[0];
    *group = Group::default();
    group.insert(all);
    assert_eq!(size(&other), 1);
    assert_eq!(world.agreement(&other), Ok(true));
}
