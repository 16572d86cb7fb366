//! The answers of a check's calls, counted.

use std::collections::BTreeMap;
use std::io::{self, Write};

use hedjosur_model::ops::Refusal;

/// How often calls were accepted, and refused for each reason, by number.
type Counts = [usize; 1 + Refusal::ALL.len()];

/// How often calls of each kind were accepted, and refused for each reason.
#[derive(Clone, Debug, Default)]
pub struct Answers(BTreeMap<&'static str, Counts>);

impl Answers {
    /// Counts a call.
    pub fn count<T>(&mut self, call: &'static str, answer: &Result<T, Refusal>) {
        let refusal = answer.as_ref().err().map_or(0, |refusal| refusal.number());
        self.0.entry(call).or_default()[refusal as usize] += 1;
    }

    /// Of all kinds together, how many calls were accepted, and how many refused
    /// for each reason.
    pub fn totals(&self) -> Counts {
        std::array::from_fn(|number| self.0.values().map(|answers| answers[number]).sum())
    }

    /// The answers of one kind's calls: 0 where some were accepted, and the refusals
    /// that occurred, by number.
    pub fn met(&self, call: &str) -> Vec<usize> {
        let answers = self.0.get(call).copied().unwrap_or_default();
        (0..answers.len())
            .filter(|&number| answers[number] > 0)
            .collect()
    }

    /// How many calls were accepted.
    pub fn accepted(&self) -> usize {
        self.totals()[0]
    }

    /// How many calls were refused for this reason.
    pub fn refused(&self, refusal: Refusal) -> usize {
        self.totals()[refusal.number() as usize]
    }

    /// Tells how many calls were made without a difference: at least `least`.
    pub fn tell(&self, check: &str, least: usize) {
        let totals = self.totals();
        let calls: usize = totals.iter().sum();
        let kinds = self.0.iter().map(|(kind, answers)| {
            let times: usize = answers.iter().sum();
            format!("{kind} {times}")
        });
        let kinds: Vec<String> = kinds.collect();
        // Written past the capture of the tests' output, so that every run shows it.
        let _ = writeln!(
            io::stderr(),
            "{check}: {calls} calls without a difference ({}); refused 1 to {}: {:?}",
            kinds.join(", "),
            Refusal::ALL.len(),
            &totals[1..]
        );
        assert!(calls >= least, "{check}: {calls} calls, not {least}");
    }
}
