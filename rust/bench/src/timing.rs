//! Medians of many timed batches.

use std::time::{Duration, Instant};

/// How many batches are timed; the median counts.
const BATCHES: usize = 101;

/// What a batch takes at least.
const LEAST: Duration = Duration::from_micros(150);

/// What all batches of a comparison take at most, but for the fewest that count.
const MOST: Duration = Duration::from_secs(2);
const FEWEST: usize = 7;

/// Microseconds for one operation, in the median batch.
#[derive(Clone, Copy, Debug)]
pub struct Comparison {
    /// By the baseline.
    pub baseline: f64,
    /// By the proved code.
    pub proved: f64,
}

/// Times two ways to do `operations` operations. `prepare` comes before each and
/// isn't timed. The two take turns, so that both meet the same disturbances.
pub fn compare<W>(
    work: &mut W,
    operations: usize,
    prepare: impl Fn(&mut W),
    baseline: impl Fn(&mut W),
    proved: impl Fn(&mut W),
) -> Comparison {
    let mut by_baseline = Side::new(work, &prepare, &baseline);
    let mut by_proved = Side::new(work, &prepare, &proved);
    let start = Instant::now();
    for done in 0..BATCHES {
        if done >= FEWEST && start.elapsed() > MOST {
            break;
        }
        by_baseline.time_batch(work, &prepare, &baseline);
        by_proved.time_batch(work, &prepare, &proved);
    }
    Comparison {
        baseline: by_baseline.median(operations),
        proved: by_proved.median(operations),
    }
}

/// One of the two ways: how often it runs in a batch, and the batches' times.
struct Side {
    repetitions: u32,
    times: Vec<Duration>,
}

impl Side {
    /// Warms up, and finds how many repetitions make a batch.
    fn new<W>(work: &mut W, prepare: &impl Fn(&mut W), run: &impl Fn(&mut W)) -> Side {
        let mut side = Side {
            repetitions: 1,
            times: Vec::new(),
        };
        for _ in 0..20 {
            side.time_batch(work, prepare, run);
            let taken = side.times.pop().unwrap_or_default();
            if taken < LEAST {
                side.repetitions += side.repetitions / 2 + 1;
            } else if taken > 20 * LEAST {
                break;
            }
        }
        side
    }

    fn time_batch<W>(&mut self, work: &mut W, prepare: &impl Fn(&mut W), run: &impl Fn(&mut W)) {
        let mut taken = Duration::ZERO;
        for _ in 0..self.repetitions {
            prepare(work);
            let start = Instant::now();
            run(work);
            taken += start.elapsed();
        }
        self.times.push(taken);
    }

    fn median(mut self, operations: usize) -> f64 {
        self.times.sort_unstable();
        let median = self.times[self.times.len() / 2];
        median.as_secs_f64() * 1e6 / f64::from(self.repetitions) / operations as f64
    }
}
