//! Document 02's request i, 'No shorter list of records': 'no other cutting of a sorted
//! batch into runs, each within one group and each accurate or (with a bound of at least
//! 1) approximate by document 01's rule, has fewer records than the one learned'.
//!
//! [`judge`] says of one part of a batch whether it is a run, [`runs`] finds the shortest
//! of all cuttings, and [`lists`] holds a list of records against both. None of them uses
//! the model's learner, which [`shortest`] then tries on many batches and [`budget`]
//! counts; [`shams`] are learners that have to be found out. [`laws`] are why the sentence
//! is true, and [`statements`] stronger ones that are not.

mod batches;
mod budget;
mod judge;
mod laws;
mod lists;
mod runs;
mod shams;
mod shortest;
mod statements;

use hedjosur_model::learn::{learn, Learned};
use judge::Batch;

/// The model's list for a batch.
fn learned(batch: &Batch) -> Vec<Learned> {
    learn(batch.bound, batch.first, &batch.sorted)
}
