//! Why no cutting is shorter, and what else is true of cuttings, on any batch: 'both kinds
//! of run are closed under taking parts of consecutive members, and the greedy run is a
//! longest one'.

use hedjosur_model::testing::rounds;

use crate::batches::any_batch;
use crate::judge::Batch;
use crate::learned;
use crate::lists::cutting_of;
use crate::runs::Runs;

#[test]
fn a_part_of_a_run_is_a_run() {
    rounds(80, &mut (), |random, log, ()| {
        let batch = any_batch(random);
        log.note(&batch);
        let runs = Runs::of(&batch);
        for from in batch.places() {
            for end in from + 2..=batch.sorted.len() {
                let shorter = [from..end - 1, from + 1..end];
                let both = shorter.iter().all(|part| runs.has(part));
                assert!(both || !runs.has(&(from..end)), "{from} to {end}");
            }
        }
    });
}

#[test]
fn each_learned_run_is_a_longest_one() {
    rounds(80, &mut (), |random, log, ()| {
        let batch = any_batch(random);
        log.note(&batch);
        let runs = Runs::of(&batch);
        for part in cutting_of(&batch, &learned(&batch)).expect("a cutting") {
            let mut longer = part.end + 1..=batch.sorted.len();
            assert!(!longer.any(|end| runs.has(&(part.start..end))), "{part:?}");
        }
    });
}

#[test]
fn runs_taken_from_the_right_are_as_few() {
    rounds(80, &mut (), |random, log, ()| {
        let batch = any_batch(random);
        log.note(&batch);
        let runs = Runs::of(&batch);
        let (mut end, mut taken) = (batch.sorted.len(), 0);
        while end > 0 {
            let longest = (0..end).find(|&from| runs.has(&(from..end)));
            end = longest.expect("one page alone is a run");
            taken += 1;
        }
        assert_eq!(taken, learned(&batch).len());
    });
}

/// One flush writes the pages before a place, the other those after it.
#[test]
fn a_batch_cut_over_two_flushes_never_needs_fewer() {
    rounds(400, &mut (), |random, log, ()| {
        let batch = any_batch(random);
        let at = random.below(batch.sorted.len() as u32) as usize;
        log.note((&batch, at));
        let (left, right) = batch.sorted.split_at(at);
        let records = [left, right].map(|pages| {
            let sorted = pages.to_vec();
            let flush = Batch {
                sorted,
                ..batch.clone()
            };
            learned(&flush).len()
        });
        assert!(records[0] + records[1] >= learned(&batch).len());
    });
}
