//! What is counted while a load runs.

use std::time::Duration;

use hedjosur::Lookup;

/// How often each number was met.
#[derive(Clone, Debug, Default, PartialEq, Eq)]
pub struct Histogram(Vec<u64>);

impl Histogram {
    /// Counts a number.
    pub fn add(&mut self, number: u32) {
        let at = number as usize;
        if self.0.len() <= at {
            self.0.resize(at + 1, 0);
        }
        self.0[at] += 1;
    }

    /// How many numbers were counted.
    pub fn count(&self) -> u64 {
        self.0.iter().sum()
    }

    /// The sum of the numbers.
    pub fn sum(&self) -> u64 {
        (0..)
            .zip(&self.0)
            .map(|(number, times)| number * times)
            .sum()
    }

    /// Their mean, 0 for none.
    pub fn mean(&self) -> f64 {
        ratio(self.sum(), self.count())
    }

    /// The smallest number that at least `percent` of a hundred don't exceed, 0 for
    /// none.
    pub fn percentile(&self, percent: u64) -> u64 {
        let wanted = (self.count() * percent).div_ceil(100);
        let mut met = 0;
        let below = self.0.iter().take_while(|&&times| {
            met += times;
            met < wanted
        });
        below.count() as u64
    }

    /// The highest number, 0 for none.
    pub fn highest(&self) -> u64 {
        self.0.len().saturating_sub(1) as u64
    }
}

/// A quotient, 0 where there is nothing to divide by.
pub fn ratio(part: u64, whole: u64) -> f64 {
    match whole {
        0 => 0.0,
        _ => part as f64 / whole as f64,
    }
}

/// Lookups, counted.
#[derive(Clone, Debug, Default, PartialEq, Eq)]
pub struct Lookups {
    /// Those that found their logical page.
    pub found: u64,
    /// Those that were told 'not written'.
    pub not_written: u64,
    /// Those that found it on another page than the predicted one.
    pub second_reads: u64,
    /// The levels that each looked at, whatever it found.
    pub levels: Histogram,
}

impl Lookups {
    /// Counts an answer.
    pub fn add(&mut self, lookup: Lookup) {
        match lookup {
            Lookup::Found { .. } => self.found += 1,
            Lookup::NotWritten { .. } => self.not_written += 1,
        }
        self.second_reads += u64::from(lookup.reads() == 2);
        self.levels.add(lookup.levels());
    }
}

/// The writing, counted.
#[derive(Clone, Debug, Default, PartialEq, Eq)]
pub struct Writing {
    /// Pages that the load wrote.
    pub written: u64,
    /// Pages that the load read while they waited in the buffer: no lookup.
    pub buffered_reads: u64,
    /// Accepted flushes.
    pub flushes: u64,
    /// Pages that they programmed.
    pub flushed: u64,
    /// Collections.
    pub collections: u64,
    /// Pages that they copied.
    pub copied: u64,
    /// The most that one copied.
    pub copied_most: u64,
    /// Blocks that they erased.
    pub erased: u64,
    /// The most that one erased.
    pub erased_most: u64,
    /// Compactions of all groups.
    pub compactions: u64,
    /// Stride runs of what each flush and collection wrote.
    pub strides: u64,
    /// Records that were learned from it.
    pub learned: u64,
}

impl Writing {
    /// Pages that flushes and collections programmed.
    pub fn programmed(&self) -> u64 {
        self.flushed + self.copied
    }

    /// Programmed pages for each page that the load wrote.
    pub fn amplification(&self) -> f64 {
        ratio(self.programmed(), self.written)
    }
}

/// The times of one kind of call, in the order of the calls.
#[derive(Clone, Debug, Default, PartialEq, Eq)]
pub struct Time(Vec<Duration>);

impl Time {
    /// Counts a call.
    pub fn add(&mut self, took: Duration) {
        self.0.push(took);
    }

    /// Takes in the times of the same calls, made once more: of each call the
    /// shorter time counts, as the other had to wait for something else.
    pub fn again(&mut self, other: &Time) {
        for (once, again) in self.0.iter_mut().zip(&other.0) {
            *once = (*once).min(*again);
        }
    }

    /// The mean, 0 for none.
    pub fn mean(&self) -> Duration {
        let total: Duration = self.0.iter().sum();
        total.checked_div(self.0.len() as u32).unwrap_or_default()
    }

    /// The longest single one, 0 for none.
    pub fn longest(&self) -> Duration {
        self.0.iter().max().copied().unwrap_or_default()
    }
}

/// The times of the calls.
#[derive(Clone, Debug, Default, PartialEq, Eq)]
pub struct Times {
    /// Accepted flushes.
    pub flush: Time,
    /// Lookups.
    pub lookup: Time,
    /// Collections.
    pub collect: Time,
    /// Compactions, each of one group.
    pub compact: Time,
    /// All calls that a page waits for when the buffer is emptied.
    pub stall: Time,
}

impl Times {
    /// Takes in the times of the same calls, made once more.
    pub fn again(&mut self, other: &Times) {
        let Times {
            flush,
            lookup,
            collect,
            compact,
            stall,
        } = self;
        flush.again(&other.flush);
        lookup.again(&other.lookup);
        collect.again(&other.collect);
        compact.again(&other.compact);
        stall.again(&other.stall);
    }
}

#[cfg(test)]
mod tests {
    use super::*;

    #[test]
    fn a_histogram_of_known_numbers() {
        let mut levels = Histogram::default();
        assert_eq!(
            (levels.mean(), levels.percentile(99), levels.highest()),
            (0.0, 0, 0)
        );
        for number in [1; 98].into_iter().chain([4, 10]) {
            levels.add(number);
        }
        assert_eq!((levels.count(), levels.sum()), (100, 112));
        assert_eq!(levels.mean(), 1.12);
        assert_eq!(
            [50, 98, 99, 100].map(|p| levels.percentile(p)),
            [1, 1, 4, 10]
        );
        assert_eq!(levels.highest(), 10);
    }

    #[test]
    fn a_lookup_counts_by_what_it_answered() {
        let mut lookups = Lookups::default();
        for (page, predicted) in [(7, 7), (7, 8)] {
            lookups.add(Lookup::Found {
                page,
                predicted,
                levels: 2,
            });
        }
        lookups.add(Lookup::NotWritten { levels: 5 });
        assert_eq!(
            (lookups.found, lookups.not_written, lookups.second_reads),
            (2, 1, 1)
        );
        assert_eq!((lookups.levels.sum(), lookups.levels.highest()), (9, 5));
    }

    #[test]
    fn the_longest_call_is_kept_and_the_shorter_of_two_runs() {
        let time = |micros: [u64; 3]| Time(micros.map(Duration::from_micros).to_vec());
        let micros = |time: &Time| (time.mean().as_micros(), time.longest().as_micros());
        assert_eq!(micros(&Time::default()), (0, 0));
        let mut once = time([1, 5, 3]);
        assert_eq!(micros(&once), (3, 5));
        once.again(&time([2, 1, 4]));
        assert_eq!(once, time([1, 1, 3]));
    }
}
