//! 'The memory budget of the new line is drawn up from record counts': how many records a
//! flush learns for a group at most.

use hedjosur_model::device::group_of;
use hedjosur_model::testing::rounds;

use crate::batches::{any_batch, long_batch, subsets, EDGE, STRIDES};
use crate::judge::Batch;
use crate::learned;

/// How many records are learned for each group that a batch touches.
fn records(batch: &Batch) -> Vec<usize> {
    let learned = learned(batch);
    let records = |group| learned.iter().filter(|one| one.group == group).count();
    let groups = batch.groups().into_iter();
    groups
        .map(|places| records(group_of(batch.sorted[places.start])))
        .collect()
}

/// How many runs of one stride the pages of one group are cut into from the left: a run
/// ends where a step differs from the step between its first two pages.
fn stride_runs(pages: &[u32]) -> usize {
    let mut runs = 1;
    let mut stride = None;
    for pair in pages.windows(2) {
        let step = pair[1] - pair[0];
        if stride.is_none_or(|stride| stride == step) {
            stride = Some(step);
        } else {
            runs += 1;
            stride = None;
        }
    }
    runs
}

fn assert_stride_runs(batch: Batch) {
    let batch = Batch { bound: 0, ..batch };
    let groups = batch.groups().into_iter();
    let stride_runs = groups.map(|places| stride_runs(&batch.sorted[places]));
    assert_eq!(records(&batch), Vec::from_iter(stride_runs));
}

#[test]
fn with_bound_0_they_are_the_stride_runs() {
    for sorted in subsets(&EDGE).chain(subsets(&STRIDES)) {
        let (bound, first) = (0, 64);
        assert_stride_runs(Batch {
            bound,
            first,
            sorted,
        });
    }
    rounds(300, &mut (), |random, log, ()| {
        let batch = long_batch(random);
        log.note(&batch);
        assert_stride_runs(batch);
    });
}

/// So the stride runs are enough for every bound.
#[test]
fn a_larger_bound_never_needs_more() {
    let mut fewer = 0;
    rounds(400, &mut fewer, |random, log, fewer| {
        let batch = any_batch(random);
        log.note(&batch);
        let with_bound = |bound| {
            records(&Batch {
                bound,
                ..batch.clone()
            })
        };
        let mut before = with_bound(0);
        for bound in 1..=15 {
            let after = with_bound(bound);
            assert!(after
                .iter()
                .zip(&before)
                .all(|(after, before)| after <= before));
            *fewer += usize::from(after < before);
            before = after;
        }
    });
    assert!(fewer > 0, "no larger bound saved a record");
}

/// So they are never more than the pages, nor than half of them, rounded up. Two pages
/// have one stride, and the predictions of 2g + 2 need one step up: a slope makes it,
/// because from 0 to 256 the steps between two offsets grow by at most one at a time.
#[test]
fn each_2g_plus_2_pages_need_one_record() {
    rounds(1000, &mut (), |random, log, ()| {
        let batch = long_batch(random);
        log.note(&batch);
        let enough = 2 * batch.bound as usize + 2;
        for (places, records) in batch.groups().into_iter().zip(records(&batch)) {
            assert!(records <= places.len().div_ceil(enough));
        }
    });
}

#[test]
fn a_page_more_may_need_a_second_record() {
    for bound in 0..=9 {
        let enough = 1..=2 * bound + 2;
        let batch = |sorted| Batch {
            bound,
            first: 0,
            sorted,
        };
        assert_eq!(records(&batch(enough.clone().collect())), [1]);
        assert_eq!(records(&batch(enough.chain([255]).collect())), [2]);
    }
}
