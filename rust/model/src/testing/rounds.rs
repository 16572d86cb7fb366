//! The rounds of a test, each with a seed and a log.

use std::fmt::Debug;
use std::{env, thread};

use super::Random;

/// What the number of rounds is multiplied by: the number in the environment
/// variable `HEDJOSUR_ROUNDS`, or 1.
pub fn multiplier() -> u64 {
    env::var("HEDJOSUR_ROUNDS").map_or(1, |text| {
        text.parse().expect("HEDJOSUR_ROUNDS is a number of rounds")
    })
}

/// Runs `round` with a generator for each of `base` seeds, times the
/// [`multiplier`]; the rounds share `tally`.
pub fn rounds<T>(base: u64, tally: &mut T, round: impl Fn(&mut Random, &mut CallLog, &mut T)) {
    for seed in 0..base * multiplier() {
        round(&mut Random::new(seed), &mut CallLog::new(seed), tally);
    }
}

/// The calls of one round, printed with the seed if the round panics.
#[derive(Debug)]
pub struct CallLog {
    seed: u64,
    calls: Vec<String>,
}

impl CallLog {
    /// An empty log of the round with this seed.
    pub fn new(seed: u64) -> CallLog {
        let calls = Vec::new();
        CallLog { seed, calls }
    }

    /// Notes a call with its arguments.
    pub fn note(&mut self, call: impl Debug) {
        self.calls.push(format!("{call:?}"));
    }
}

impl Drop for CallLog {
    fn drop(&mut self) {
        if thread::panicking() {
            eprintln!("seed {}, after these calls:", self.seed);
            for call in &self.calls {
                eprintln!("  {call}");
            }
        }
    }
}
