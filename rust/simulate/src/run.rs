//! One load on one device.

use hedjosur::{Numbers, Refusal};

use crate::counts::{ratio, Lookups, Times, Writing};
use crate::driver::Driver;
use crate::load::{Load, Shape, Step};
use crate::memory::{Approximate, Usage};

/// How many samples are taken of a run.
const SAMPLES: u64 = 100;

/// A load, the device it runs on, and how the device is driven.
#[derive(Clone, Debug)]
pub struct Case {
    /// The load.
    pub load: Load,
    /// How it is cut, where it is made by a rule.
    pub shape: Shape,
    /// The device.
    pub numbers: Numbers,
    /// After how many written pages all groups are compacted; 0 never.
    pub compact: u64,
    /// After how many written pages the buffer is flushed, besides the load's own
    /// syncs; 0 never.
    pub sync: u64,
    /// The pages of the buffer.
    pub buffer: u32,
}

/// The table at a moment of a run.
#[derive(Clone, Copy, Debug, PartialEq)]
pub struct Sample {
    /// Pages written so far.
    pub writes: u64,
    /// What the table has in use.
    pub usage: Usage,
    /// The mean of the levels that the load's lookups looked at since the sample
    /// before, 0 where it made none.
    pub levels: f64,
}

/// What a run came to.
#[derive(Clone, Debug)]
pub struct Outcome {
    /// What was run.
    pub case: Case,
    /// The writing.
    pub writing: Writing,
    /// The load's own lookups.
    pub lookups: Lookups,
    /// A lookup of every logical page at the end.
    pub sweep: Lookups,
    /// What the table has in use at the end.
    pub usage: Usage,
    /// The most bytes that it had in use after any flush.
    pub peak: u64,
    /// The approximate records at the end.
    pub approximate: Approximate,
    /// The times.
    pub times: Times,
    /// The table along the run.
    pub samples: Vec<Sample>,
}

/// Runs a case. `watch` is told how many pages were written, a hundred times.
pub fn run(case: &Case, watch: &mut dyn FnMut(u64)) -> Result<Outcome, Refusal> {
    let mut driver = Driver::open(case.numbers, case.buffer as usize)?;
    let mut samples = Vec::new();
    let (mut peak, mut flushes) = (0, 0);
    let mut seen = Lookups::default().levels;
    let every = case.load.writes(case.shape).div_ceil(SAMPLES).max(1);
    for step in case.load.steps(case.shape) {
        match step {
            Step::Read(page) => driver.read(page)?,
            Step::Sync => driver.sync()?,
            Step::Write(page) => {
                driver.write(page)?;
                let written = driver.writing.written;
                if is_due(written, case.sync) {
                    driver.sync()?;
                }
                if is_due(written, case.compact) {
                    peak = peak.max(driver.usage().bytes());
                    driver.compact()?;
                }
                if is_due(written, every) {
                    let levels = &driver.lookups.levels;
                    let sum = levels.sum() - seen.sum();
                    let levels_mean = ratio(sum, levels.count() - seen.count());
                    seen = levels.clone();
                    let usage = driver.usage();
                    samples.push(Sample {
                        writes: written,
                        usage,
                        levels: levels_mean,
                    });
                    watch(written);
                }
            }
        }
        if driver.writing.flushes != flushes {
            flushes = driver.writing.flushes;
            peak = peak.max(driver.usage().bytes());
        }
    }
    driver.sync()?;
    let sweep = driver.sweep()?;
    let usage = driver.usage();
    Ok(Outcome {
        case: case.clone(),
        sweep,
        usage,
        peak: peak.max(usage.bytes()),
        approximate: Approximate::of(case.numbers, driver.state()),
        writing: driver.writing,
        lookups: driver.lookups,
        times: driver.times,
        samples,
    })
}

/// Whether something that is done every so often is due.
fn is_due(written: u64, period: u64) -> bool {
    period != 0 && written.is_multiple_of(period)
}

#[cfg(test)]
mod tests {
    use std::rc::Rc;

    use super::*;
    use crate::load::{Pattern, Trace};

    fn case(load: Load) -> Case {
        let numbers = Numbers {
            blocks: 9,
            block_pages: 64,
            logical_pages: 256,
            error_bound: 1,
        };
        let shape = Shape {
            pages: 256,
            writes: 1000,
            reads: 100,
            stride: 4,
            valves: 10,
            seed: 1,
        };
        Case {
            load,
            shape,
            numbers,
            compact: 0,
            sync: 0,
            buffer: 64,
        }
    }

    fn ran(case: &Case) -> Outcome {
        run(case, &mut |_| ()).expect("accepted")
    }

    /// Document 01's script as a trace: after it and a compaction four records are
    /// left; before, lookup 50 looks at two levels, and 82 needs one read.
    #[test]
    fn the_script_of_document_01() {
        let text =
            "W 0 64\nW 200 56\nF\nW 16 16\nF\n75\n78\n82\nF\n72\n73\n80\nF\nR 50 1\nR 82 1\n\
                    W 32 59\nF\nR 78 1\n";
        let trace = Trace::parse("script", text).expect("a trace");
        let mut case = case(Load::Traced(Rc::new(trace)));
        let outcome = ran(&case);
        assert_eq!((outcome.writing.flushes, outcome.writing.flushed), (6, 201));
        assert_eq!(
            (outcome.lookups.found, outcome.lookups.second_reads),
            (3, 0)
        );
        assert_eq!(
            (
                outcome.lookups.levels.sum(),
                outcome.lookups.levels.highest()
            ),
            (5, 2)
        );
        assert_eq!(outcome.sweep.found, 147);
        case.compact = 201;
        let compacted = ran(&case);
        assert_eq!(compacted.writing.compactions, 1);
        assert_eq!(compacted.lookups, outcome.lookups);
    }

    #[test]
    fn a_run_is_repeated_by_its_seed() {
        for pattern in Pattern::ALL {
            let case = case(Load::Made(pattern));
            let (once, again) = (ran(&case), ran(&case));
            assert_eq!(once.writing, again.writing);
            assert_eq!((once.lookups, once.sweep), (again.lookups, again.sweep));
            assert_eq!((once.usage, once.peak), (again.usage, again.peak));
            assert_eq!((once.samples.len(), once.writing.written), (100, 1000));
            assert!(once.peak >= once.usage.bytes());
        }
    }

    /// Document 02, i: there are never more records than stride runs, nor than at a
    /// smaller bound, and at bound 0 exactly as many as stride runs.
    #[test]
    fn records_stay_within_the_budget() {
        for pattern in Pattern::ALL {
            let mut case = case(Load::Made(pattern));
            let mut before = u64::MAX;
            for bound in [0, 1, 2, 4, 15] {
                case.numbers.error_bound = bound;
                let writing = ran(&case).writing;
                if bound == 0 {
                    assert_eq!(writing.learned, writing.strides, "{pattern:?}");
                }
                assert!(
                    writing.learned <= writing.strides.min(before),
                    "{pattern:?}"
                );
                assert!(writing.strides <= writing.programmed(), "{pattern:?}");
                before = writing.learned;
            }
        }
    }

    /// Syncs flush few pages, each into a block of its own.
    #[test]
    fn syncs_cost_blocks() {
        let mut case = case(Load::Made(Pattern::Sequential));
        assert_eq!(ran(&case).writing.flushes, 16);
        case.sync = 4;
        let synced = ran(&case);
        assert_eq!(
            (synced.writing.flushes, synced.writing.flushed),
            (250, 1000)
        );
        assert!(synced.writing.collections > 0);
    }
}
