//! Learners that break request i or are no learners at all: the comparison has to find
//! them out, or it shows nothing.

use std::collections::BTreeSet;

use hedjosur_model::learn::{learn, Learned};

use crate::batches::{subsets, STRIDES};
use crate::judge::{Batch, Part};
use crate::learned;
use crate::lists::{as_short_as_any, cutting_of, Fault};
use crate::runs::Runs;

/// The faults found in what a sham makes of every subset of eleven pages, with bound 1.
fn faults(sham: impl Fn(&Batch, &Runs) -> Result<Vec<Part>, Fault>) -> Vec<Fault> {
    let judged = subsets(&STRIDES).map(|sorted| {
        let (bound, first) = (1, 0);
        let batch = Batch {
            bound,
            first,
            sorted,
        };
        let runs = Runs::of(&batch);
        let cutting = sham(&batch, &runs)?;
        as_short_as_any(&batch, &runs, &cutting)
    });
    let faults: BTreeSet<Fault> = judged.filter_map(Result::err).collect();
    faults.into_iter().collect()
}

/// The same for a sham that changes the learned list.
fn faults_of_lists(change: impl Fn(&mut Vec<Learned>)) -> Vec<Fault> {
    faults(|batch, _| {
        let mut list = learned(batch);
        change(&mut list);
        cutting_of(batch, &list)
    })
}

#[test]
fn the_learner_itself_has_no_fault() {
    assert_eq!(faults_of_lists(|_| {}), []);
}

#[test]
fn one_that_ends_each_run_a_page_early_is_found_out() {
    let early = |batch: &Batch, runs: &Runs| {
        let (mut cutting, mut from) = (Vec::new(), 0);
        while from < batch.sorted.len() {
            let mut ends = from + 1..=batch.sorted.len();
            let longest = ends.rfind(|&end| runs.has(&(from..end)));
            let end = longest.map_or(from + 1, |end| (end - 1).max(from + 1));
            cutting.push(from..end);
            from = end;
        }
        Ok(cutting)
    };
    assert_eq!(faults(early), [Fault::TooMany]);
}

#[test]
fn one_that_always_takes_the_accurate_run_is_found_out() {
    let accurate = |batch: &Batch, _: &Runs| {
        let list = learn(0, batch.first, &batch.sorted);
        cutting_of(batch, &list)
    };
    assert_eq!(faults(accurate), [Fault::TooMany]);
}

#[test]
fn one_that_leaves_pages_out_is_found_out() {
    let drop_last_record = |list: &mut Vec<Learned>| {
        list.pop();
    };
    assert_eq!(faults_of_lists(drop_last_record), [Fault::Members]);
    let drop_last_pages = |list: &mut Vec<Learned>| {
        for one in list {
            let last = BTreeSet::from([one.record.last() as u8]);
            if let Some(shorter) = one.record.without(&last) {
                one.record = shorter;
            }
        }
    };
    assert_eq!(faults_of_lists(drop_last_pages), [Fault::Members]);
}

#[test]
fn one_that_predicts_a_page_too_far_is_found_out() {
    let predict_too_far = |list: &mut Vec<Learned>| {
        for one in list {
            one.record.intercept += 1;
        }
    };
    assert_eq!(faults_of_lists(predict_too_far), [Fault::NoRun]);
}
