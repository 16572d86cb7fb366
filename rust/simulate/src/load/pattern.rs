//! Loads made by a rule.

use hedjosur_model::testing::Random;

use super::Step;

/// The hours of a day.
const HOURS: u32 = 24;

/// A rule by which logical pages are written.
#[derive(Clone, Copy, Debug, PartialEq, Eq)]
pub enum Pattern {
    /// 0, 1, 2 and so on, over and over.
    Sequential,
    /// Every so many-th page, from 0 on; in the next round from 1 on.
    Strided,
    /// Runs of 1 to 12 neighbours with 1 to 6 pages left out between them, upwards,
    /// over and over.
    Clustered,
    /// Four of five writes go to the first fifth of the pages; there, and so on
    /// inward, the same.
    Skewed,
    /// Any page, all alike.
    Random,
    /// In equal parts runs of 1 to 64 pages from anywhere, runs of stride 2 to 8 of
    /// 1 to 32 pages, and single pages as in a skewed load.
    Mixed,
    /// Valves report each hour, each time in another order; the valve's page for
    /// that hour is written. A valve's 24 pages are neighbours. The next day writes
    /// the same pages again.
    Stairwell,
    /// The same, but the pages of an hour are neighbours.
    Hourly,
}

/// How a load made by a rule is cut.
#[derive(Clone, Copy, Debug, PartialEq, Eq)]
pub struct Shape {
    /// The logical pages that there are.
    pub pages: u32,
    /// How many pages are written.
    pub writes: u64,
    /// How many pages are read for each hundred written; each was written before,
    /// all such pages alike.
    pub reads: u32,
    /// The stride of a strided load.
    pub stride: u32,
    /// The valves of a stairwell.
    pub valves: u32,
    /// What the random numbers start from.
    pub seed: u64,
}

impl Pattern {
    /// All patterns.
    pub const ALL: [Pattern; 8] = [
        Pattern::Sequential,
        Pattern::Strided,
        Pattern::Clustered,
        Pattern::Skewed,
        Pattern::Random,
        Pattern::Mixed,
        Pattern::Stairwell,
        Pattern::Hourly,
    ];

    /// Its name.
    pub fn name(self) -> &'static str {
        match self {
            Pattern::Sequential => "sequential",
            Pattern::Strided => "strided",
            Pattern::Clustered => "clustered",
            Pattern::Skewed => "skewed",
            Pattern::Random => "random",
            Pattern::Mixed => "mixed",
            Pattern::Stairwell => "stairwell",
            Pattern::Hourly => "hourly",
        }
    }

    /// Its steps.
    pub fn steps(self, shape: Shape) -> impl Iterator<Item = Step> {
        Steps {
            pattern: self,
            shape,
            random: Random::new(shape.seed),
            written: Vec::new(),
            seen: vec![false; shape.pages as usize],
            made: 0,
            owed: 0,
            run: Run::default(),
            order: Vec::new(),
        }
    }
}

/// What is left of a run.
#[derive(Clone, Copy, Debug, Default)]
struct Run {
    next: u32,
    stride: u32,
    left: u32,
}

struct Steps {
    pattern: Pattern,
    shape: Shape,
    random: Random,
    /// The pages written so far, each once.
    written: Vec<u32>,
    seen: Vec<bool>,
    /// The writes made.
    made: u64,
    /// Hundredths of reads that are due.
    owed: u32,
    /// A clustered or mixed load's run.
    run: Run,
    /// The valves that have yet to report this hour.
    order: Vec<u32>,
}

impl Iterator for Steps {
    type Item = Step;

    fn next(&mut self) -> Option<Step> {
        if self.owed >= 100 {
            self.owed -= 100;
            return Some(Step::Read(self.random.pick(&self.written)));
        }
        if self.made == self.shape.writes {
            return None;
        }
        let page = self.page();
        self.made += 1;
        self.owed += self.shape.reads;
        if !std::mem::replace(&mut self.seen[page as usize], true) {
            self.written.push(page);
        }
        Some(Step::Write(page))
    }
}

impl Steps {
    fn page(&mut self) -> u32 {
        let pages = self.shape.pages;
        match self.pattern {
            Pattern::Sequential => (self.made % u64::from(pages)) as u32,
            Pattern::Strided => strided(self.made, pages, self.shape.stride),
            Pattern::Clustered => self.clustered(),
            Pattern::Skewed => self.skewed(),
            Pattern::Random => self.random.below(pages),
            Pattern::Mixed => self.mixed(),
            Pattern::Stairwell => {
                let (valve, hour) = self.report();
                valve * HOURS + hour
            }
            Pattern::Hourly => {
                let (valve, hour) = self.report();
                hour * self.shape.valves + valve
            }
        }
    }

    fn clustered(&mut self) -> u32 {
        if self.run.left == 0 {
            let next = self.run.next + self.random.between(1, 6);
            self.run = Run {
                next: next % self.shape.pages,
                stride: 1,
                left: self.random.between(1, 12),
            };
        }
        self.follow()
    }

    fn skewed(&mut self) -> u32 {
        let mut pages = self.shape.pages;
        while pages >= 5 && !self.random.once_in(5) {
            pages /= 5;
        }
        self.random.below(pages)
    }

    fn mixed(&mut self) -> u32 {
        if self.run.left == 0 {
            let next = self.random.below(self.shape.pages);
            self.run = match self.random.below(3) {
                0 => Run {
                    next,
                    stride: 1,
                    left: self.random.between(1, 64),
                },
                1 => Run {
                    next,
                    stride: self.random.between(2, 8),
                    left: self.random.between(1, 32),
                },
                _ => Run {
                    next: self.skewed(),
                    stride: 1,
                    left: 1,
                },
            };
        }
        self.follow()
    }

    /// The next page of the run.
    fn follow(&mut self) -> u32 {
        let page = self.run.next;
        self.run.next = (page + self.run.stride) % self.shape.pages;
        self.run.left -= 1;
        page
    }

    /// The next valve to report, and the hour of the day.
    fn report(&mut self) -> (u32, u32) {
        let valves = self.shape.valves;
        if self.order.is_empty() {
            self.order = Vec::from_iter(0..valves);
            self.random.shuffle(&mut self.order);
        }
        let hour = (self.made / u64::from(valves)) as u32 % HOURS;
        (self.order.pop().expect("a valve"), hour)
    }
}

/// The page of the so many-th write of a strided load.
fn strided(made: u64, pages: u32, stride: u32) -> u32 {
    let mut left = made % u64::from(pages);
    for first in 0..stride.min(pages) {
        let round = u64::from((pages - first).div_ceil(stride));
        if left < round {
            return first + left as u32 * stride;
        }
        left -= round;
    }
    unreachable!("the rounds write each page once")
}

#[cfg(test)]
mod tests {
    use super::*;

    const SHAPE: Shape = Shape {
        pages: 100,
        writes: 300,
        reads: 50,
        stride: 8,
        valves: 4,
        seed: 7,
    };

    fn writes(pattern: Pattern) -> Vec<u32> {
        let steps = pattern.steps(SHAPE);
        let pages = steps.filter_map(|step| match step {
            Step::Write(page) => Some(page),
            _ => None,
        });
        pages.collect()
    }

    #[test]
    fn each_load_writes_what_is_asked_inside_the_pages_and_reads_what_was_written() {
        for pattern in Pattern::ALL {
            assert!(writes(pattern).iter().all(|page| *page < 100));
            assert_eq!(writes(pattern).len(), 300, "{}", pattern.name());
            let steps = Vec::from_iter(pattern.steps(SHAPE));
            assert_eq!(steps, Vec::from_iter(pattern.steps(SHAPE)));
            let mut seen = [false; 100];
            let mut reads = 0;
            for step in steps {
                match step {
                    Step::Write(page) => seen[page as usize] = true,
                    Step::Read(page) => {
                        assert!(seen[page as usize]);
                        reads += 1;
                    }
                    Step::Sync => unreachable!("none is made"),
                }
            }
            assert_eq!(reads, 150);
        }
    }

    #[test]
    fn a_strided_round_writes_each_page_once() {
        let mut round = writes(Pattern::Strided)[..100].to_vec();
        assert_eq!(
            round[..14],
            [0, 8, 16, 24, 32, 40, 48, 56, 64, 72, 80, 88, 96, 1]
        );
        round.sort();
        assert_eq!(round, Vec::from_iter(0..100));
    }

    #[test]
    fn a_clustered_load_goes_up_by_runs_and_gaps() {
        let pages = writes(Pattern::Clustered);
        let steps = pages.windows(2).map(|two| (two[1] + 100 - two[0]) % 100);
        let steps = Vec::from_iter(steps);
        assert!(steps.iter().all(|step| (1..=7).contains(step)));
        let runs = steps.split(|step| *step > 1);
        assert!(runs.clone().all(|run| run.len() < 12));
        assert!((30..=70).contains(&runs.count()));
    }

    #[test]
    fn a_stairwell_has_each_valve_once_an_hour() {
        for (pattern, valve_step, hour_step) in
            [(Pattern::Stairwell, 24, 1), (Pattern::Hourly, 1, 4)]
        {
            for (hour, reports) in (0..).zip(writes(pattern).chunks(4)) {
                let mut reports = reports.to_vec();
                reports.sort();
                let page = |valve: u32| valve * valve_step + hour % 24 * hour_step;
                assert_eq!(reports, [0, 1, 2, 3].map(page));
            }
        }
    }

    #[test]
    fn a_skewed_load_writes_the_first_pages_most() {
        let first = writes(Pattern::Skewed);
        let first = first.iter().filter(|page| **page < 20).count();
        assert!((220..=280).contains(&first), "{first} of 300");
    }
}
