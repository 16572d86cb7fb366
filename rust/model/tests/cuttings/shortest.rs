//! The learned list beside all cuttings: none 'has fewer records than the one learned'.

use hedjosur_model::testing::rounds;

use crate::batches::{long_batch, subsets, Eleven, EDGE, NEIGHBOURS, SPREAD, STRIDES, TWO_GROUPS};
use crate::judge::Batch;
use crate::learned;
use crate::lists::{as_short_as_any, cutting_of};
use crate::runs::Runs;

/// The learned list is a cutting by the judge, and no cutting is shorter.
fn assert_shortest(batch: &Batch, runs: &Runs) {
    let cutting = cutting_of(batch, &learned(batch)).expect("a cutting");
    assert_eq!(as_short_as_any(batch, runs, &cutting), Ok(()));
}

/// Every subset of eleven logical pages with bounds 0 to 3. All cuttings are also gone
/// through one by one, 88,573 for each bound.
fn try_every_subset(first: u32, eleven: &Eleven) {
    for bound in 0..=3 {
        for sorted in subsets(eleven) {
            let batch = Batch {
                bound,
                first,
                sorted,
            };
            let runs = Runs::of(&batch);
            assert_shortest(&batch, &runs);
            let shortest = runs.cuttings().map(|cutting| cutting.len()).min();
            assert_eq!(shortest, Some(runs.least(&batch.places())), "{batch:?}");
        }
    }
}

#[test]
fn every_subset_of_eleven_neighbours() {
    try_every_subset(64, &NEIGHBOURS);
}

#[test]
fn every_subset_of_eleven_around_an_edge() {
    try_every_subset(0, &EDGE);
}

#[test]
fn every_subset_of_eleven_with_strides() {
    try_every_subset(64, &STRIDES);
}

#[test]
fn every_subset_of_eleven_spread_over_a_group() {
    try_every_subset(0, &SPREAD);
}

#[test]
fn every_subset_of_eleven_in_two_groups() {
    try_every_subset(1000, &TWO_GROUPS);
}

/// What was met in long batches.
#[derive(Default)]
struct Met {
    accurate: usize,
    approximate: usize,
    second_group: usize,
    whole_block: usize,
}

#[test]
fn long_batches() {
    let mut met = Met::default();
    rounds(40, &mut met, |random, log, met| {
        let batch = long_batch(random);
        log.note(&batch);
        assert_shortest(&batch, &Runs::of(&batch));
        for one in learned(&batch) {
            met.approximate += usize::from(one.record.is_approximate());
            met.accurate += usize::from(!one.record.is_approximate());
        }
        met.second_group += usize::from(batch.groups().len() > 1);
        met.whole_block += usize::from(batch.sorted.len() == 256);
    });
    assert!(met.accurate > 0, "no accurate record was learned");
    assert!(met.approximate > 0, "no approximate record was learned");
    assert!(met.second_group > 0, "no batch had a second group");
    assert!(met.whole_block > 0, "no batch had 256 pages");
}
