//! What is to be run and shown, from the command line.

use std::path::{Path, PathBuf};
use std::rc::Rc;

use hedjosur::Numbers;

use crate::load::{Load, Pattern, Shape, Trace};
use crate::plot::{self, Over, SAMPLED};
use crate::report::{self, column, Column};
use crate::{run, Case, Outcome};

/// The help that `--help` prints.
pub const HELP: &str = "\
Replays loads through the table on a flash chip in memory and says what they cost.

  --load NAME,..       sequential, strided, clustered, skewed, random, mixed, stairwell, hourly
  --trace FILE         a trace: lines W FIRST COUNT, R FIRST COUNT, F (sync), D M B N, or one
                       logical page a line; decompressed by xz where its name ends so
  --device MxB[xN],..  blocks, pages of a block, logical pages (default 129x256, a trace's own
                       device, and as many logical pages as fit)
  --bound G,..         error bounds, 0 to 15 (default 0)
  --compact PAGES,..   all groups are compacted after so many written pages; 0 never (default)
  --sync PAGES,..      the buffer is flushed after so many written pages; 0 never (default)
  --buffer PAGES,..    pages that the buffer holds (default: a block's)
  --writes PAGES       pages that a made load writes
  --rounds TIMES       the same, for each logical page (default 4)
  --reads PERCENT      pages that a made load reads for a hundred written (default 100)
  --stride PAGES       stride of a strided load (default 4)
  --valves COUNT       valves of a stairwell (default: one for each 24 logical pages)
  --seed NUMBER        what random numbers start from (default 1)
  --exact              leaves out times: what is printed depends on the options alone
  --repeat TIMES       each run is made so often, of each call the shortest time counts
  --show NAME,..       one table of these columns (those of --csv) instead of all tables
  --csv                comma-separated values
  --plot FILE.svg      draws what --measure names, columns of --csv (default used,second,levels)
  --over NAME          along bound, compact, sync, buffer, device or writes (default: the
                       first of these that has more than one value)
  --log                the drawing's upright scale is logarithmic
  --quiet              no progress on standard error

Where an option has several values, every combination is run.
";

/// A drawing that is asked for.
#[derive(Clone, Debug)]
pub struct Drawing {
    /// The file.
    pub file: PathBuf,
    /// What is drawn, a panel each.
    pub measures: Vec<&'static Column>,
    /// What it is drawn along, if that was said.
    pub over: Option<Over>,
    /// Whether the upright scale is logarithmic.
    pub log: bool,
}

/// What the command line asks for.
#[derive(Clone, Debug)]
pub struct Options {
    /// The cases to run, in order.
    pub cases: Vec<Case>,
    /// Times are left out.
    pub exact: bool,
    /// How often each case is run.
    pub repeat: u32,
    /// The columns of the one table to print, all tables where there are none.
    pub show: Vec<&'static Column>,
    /// Comma-separated values instead of tables.
    pub csv: bool,
    /// No progress.
    pub quiet: bool,
    /// The drawing, if one is asked for.
    pub drawing: Option<Drawing>,
}

/// The options as they were given.
#[derive(Default)]
struct Given {
    patterns: Vec<Pattern>,
    traces: Vec<Rc<Trace>>,
    devices: Vec<(u32, u32, Option<u32>)>,
    bounds: Vec<u32>,
    compacts: Vec<u64>,
    syncs: Vec<u64>,
    buffers: Vec<u32>,
    writes: Option<u64>,
    rounds: Option<u32>,
    reads: Option<u32>,
    stride: Option<u32>,
    valves: Option<u32>,
    seed: Option<u64>,
    exact: bool,
    repeat: Option<u32>,
    show: Vec<&'static Column>,
    csv: bool,
    quiet: bool,
    plot: Option<PathBuf>,
    measures: Vec<&'static Column>,
    over: Option<Over>,
    log: bool,
}

impl Options {
    /// The options of a command line, `None` where it asks for help, or what is
    /// wrong with it.
    pub fn parse(arguments: impl IntoIterator<Item = String>) -> Result<Option<Options>, String> {
        let mut given = Given::default();
        let mut arguments = arguments.into_iter();
        while let Some(name) = arguments.next() {
            if name == "--help" {
                return Ok(None);
            }
            if given.flag(&name) {
                continue;
            }
            let value = arguments.next();
            let value = value.ok_or_else(|| format!("{name} has no value, or is no option"))?;
            given.option(&name, &value)?;
        }
        given.options().map(Some)
    }
}

impl Options {
    /// Runs all cases; `watch` is told of each which one it is, and how many pages
    /// it has written so far.
    pub fn run(&self, watch: &mut dyn FnMut(usize, u64)) -> Result<Vec<Outcome>, String> {
        let mut outcomes = Vec::with_capacity(self.cases.len());
        for (number, case) in self.cases.iter().enumerate() {
            let mut ran = || {
                let ran = run(case, &mut |written| watch(number, written));
                ran.map_err(|refusal| format!("{}: {refusal}", case.load.name()))
            };
            let mut outcome = ran()?;
            for _ in 1..self.repeat {
                outcome.times.again(&ran()?.times);
            }
            outcomes.push(outcome);
        }
        Ok(outcomes)
    }

    /// What is printed of outcomes.
    pub fn text(&self, outcomes: &[Outcome]) -> String {
        match (self.csv, &self.show[..]) {
            (true, _) => report::csv(outcomes, self.exact),
            (false, []) => report::tables(outcomes, self.exact),
            (false, columns) => report::table(outcomes, columns),
        }
    }
}

impl Drawing {
    /// What is drawn of outcomes.
    pub fn svg(&self, outcomes: &[Outcome]) -> String {
        plot::draw(outcomes, &self.measures, self.over, self.log)
    }
}

impl Given {
    fn flag(&mut self, name: &str) -> bool {
        let flag = match name {
            "--exact" => &mut self.exact,
            "--csv" => &mut self.csv,
            "--quiet" => &mut self.quiet,
            "--log" => &mut self.log,
            _ => return false,
        };
        *flag = true;
        true
    }

    fn option(&mut self, name: &str, value: &str) -> Result<(), String> {
        match name {
            "--load" => self.patterns.extend(list(name, value, pattern)?),
            "--trace" => self.traces.push(Rc::new(Trace::open(Path::new(value))?)),
            "--device" => self.devices = list(name, value, device)?,
            "--bound" => self.bounds = list(name, value, parsed)?,
            "--compact" => self.compacts = list(name, value, parsed)?,
            "--sync" => self.syncs = list(name, value, parsed)?,
            "--buffer" => self.buffers = list(name, value, at_least_one)?,
            "--writes" => self.writes = Some(single(name, value)?),
            "--rounds" => self.rounds = Some(single(name, value)?),
            "--reads" => self.reads = Some(single(name, value)?),
            "--stride" => self.stride = Some(one(name, value, at_least_one)?),
            "--valves" => self.valves = Some(one(name, value, at_least_one)?),
            "--seed" => self.seed = Some(single(name, value)?),
            "--repeat" => self.repeat = Some(one(name, value, at_least_one)?),
            "--show" => self.show = list(name, value, column)?,
            "--plot" => self.plot = Some(PathBuf::from(value)),
            "--measure" => self.measures = list(name, value, column)?,
            "--over" => self.over = Some(one(name, value, Over::named)?),
            _ => return Err(format!("there is no option {name}")),
        }
        Ok(())
    }

    fn options(self) -> Result<Options, String> {
        let mut loads: Vec<Load> = self.patterns.iter().copied().map(Load::Made).collect();
        loads.extend(self.traces.iter().cloned().map(Load::Traced));
        if loads.is_empty() {
            return Err("no load: --load or --trace (--help tells more)".to_string());
        }
        let mut cases = Vec::new();
        for load in &loads {
            for device in self.devices_of(load) {
                for bound in or(&self.bounds, 0) {
                    let numbers = numbers(device, bound)?;
                    self.check(load, numbers)?;
                    for compact in or(&self.compacts, 0) {
                        for sync in or(&self.syncs, 0) {
                            for buffer in or(&self.buffers, numbers.block_pages) {
                                cases.push(Case {
                                    load: load.clone(),
                                    shape: self.shape(numbers),
                                    numbers,
                                    compact,
                                    sync,
                                    buffer,
                                });
                            }
                        }
                    }
                }
            }
        }
        let measures = match (self.measures.is_empty(), self.over) {
            (true, Some(Over::Writes)) => list("--measure", "used,levels", column)?,
            (true, _) => list("--measure", "used,second,levels", column)?,
            (false, _) => self.measures,
        };
        let (over, log) = (self.over, self.log);
        if over == Some(Over::Writes) {
            let other = measures.iter().find(|m| !SAMPLED.contains(&m.name));
            if let Some(other) = other {
                let known = SAMPLED.join(", ");
                return Err(format!(
                    "along writes only {known} are known, not {other:?}"
                ));
            }
        }
        Ok(Options {
            cases,
            exact: self.exact,
            repeat: self.repeat.unwrap_or(1),
            show: self.show,
            csv: self.csv,
            quiet: self.quiet,
            drawing: self.plot.map(|file| Drawing {
                file,
                measures,
                over,
                log,
            }),
        })
    }

    fn devices_of(&self, load: &Load) -> Vec<(u32, u32, Option<u32>)> {
        let own = match load {
            Load::Traced(trace) => trace.device,
            Load::Made(_) => None,
        };
        let own = own.map_or((129, 256, None), |[m, b, n]| (m, b, Some(n)));
        or(&self.devices, own)
    }

    fn shape(&self, numbers: Numbers) -> Shape {
        let pages = numbers.logical_pages;
        let rounds = self.rounds.unwrap_or(4);
        Shape {
            pages,
            writes: self.writes.unwrap_or(u64::from(rounds) * u64::from(pages)),
            reads: self.reads.unwrap_or(100),
            stride: self.stride.unwrap_or(4),
            valves: self.valves.unwrap_or(pages / 24),
            seed: self.seed.unwrap_or(1),
        }
    }

    /// A load must fit the device.
    fn check(&self, load: &Load, numbers: Numbers) -> Result<(), String> {
        let pages = numbers.logical_pages;
        match load {
            Load::Traced(trace) if trace.pages() > u64::from(pages) => Err(format!(
                "{} goes up to logical page {}, the device has {pages}",
                trace.name,
                trace.pages() - 1
            )),
            Load::Made(Pattern::Stairwell | Pattern::Hourly) => match self.shape(numbers).valves {
                0 => Err(format!(
                    "{pages} logical pages are too few for a valve's 24"
                )),
                valves if u64::from(valves) * 24 > u64::from(pages) => Err(format!(
                    "{valves} valves need 24 logical pages each, the device has {pages}"
                )),
                _ => Ok(()),
            },
            _ => Ok(()),
        }
    }
}

/// The values given, or one that stands for them.
fn or<T: Clone>(given: &[T], otherwise: T) -> Vec<T> {
    match given {
        [] => vec![otherwise],
        given => given.to_vec(),
    }
}

fn one<T>(name: &str, value: &str, read: fn(&str) -> Option<T>) -> Result<T, String> {
    read(value).ok_or_else(|| format!("{name} can't be {value}"))
}

fn single<T: std::str::FromStr>(name: &str, value: &str) -> Result<T, String> {
    one(name, value, parsed)
}

fn list<T>(name: &str, value: &str, read: fn(&str) -> Option<T>) -> Result<Vec<T>, String> {
    value
        .split(',')
        .map(|value| one(name, value, read))
        .collect()
}

fn parsed<T: std::str::FromStr>(value: &str) -> Option<T> {
    value.parse().ok()
}

fn at_least_one(value: &str) -> Option<u32> {
    parsed(value).filter(|number| *number >= 1)
}

fn pattern(name: &str) -> Option<Pattern> {
    Pattern::ALL
        .into_iter()
        .find(|pattern| pattern.name() == name)
}

fn device(value: &str) -> Option<(u32, u32, Option<u32>)> {
    let numbers: Option<Vec<u32>> = value.split('x').map(parsed).collect();
    match numbers?[..] {
        [blocks, block_pages] => Some((blocks, block_pages, None)),
        [blocks, block_pages, pages] => Some((blocks, block_pages, Some(pages))),
        _ => None,
    }
}

/// The device's numbers, N as large as it may be where it was not said.
fn numbers((m, b, n): (u32, u32, Option<u32>), g: u32) -> Result<Numbers, String> {
    let most = u64::from(m.saturating_sub(1)) * u64::from(b) / 2;
    let numbers = Numbers {
        blocks: m,
        block_pages: b,
        logical_pages: n.unwrap_or(most.min(u64::from(u32::MAX)) as u32),
        error_bound: g,
    };
    match numbers.state_len() {
        Some(_) => Ok(numbers),
        None => Err(format!(
            "no device has {m} blocks of {b} pages, {} logical pages and error bound {g}",
            numbers.logical_pages
        )),
    }
}

#[cfg(test)]
mod tests {
    use super::*;

    fn parse(line: &str) -> Result<Option<Options>, String> {
        Options::parse(line.split_whitespace().map(String::from))
    }

    #[test]
    fn every_combination_is_run() {
        let options = parse("--load random,mixed --bound 0,1,4 --compact 0,500 --exact");
        let options = options.expect("options").expect("no help");
        assert_eq!(
            (options.cases.len(), options.exact, options.csv),
            (12, true, false)
        );
        let case = &options.cases[1];
        assert_eq!(
            (case.load.name(), case.compact, case.buffer),
            ("random", 500, 256)
        );
        assert_eq!(
            (case.numbers.logical_pages, case.shape.writes),
            (16_384, 65_536)
        );
        assert!(options.drawing.is_none());
    }

    #[test]
    fn what_is_wrong_is_said() {
        for (line, wrong) in [
            ("--exact", "no load: --load or --trace (--help tells more)"),
            ("--load else", "--load can't be else"),
            ("--bound", "--bound has no value, or is no option"),
            ("--what 1", "there is no option --what"),
            (
                "--load random --bound 16",
                "no device has 129 blocks of 256 pages, 16384 logical pages and error bound 16",
            ),
            ("--load random --buffer 0", "--buffer can't be 0"),
            (
                "--load stairwell --device 9x4",
                "16 logical pages are too few for a valve's 24",
            ),
            (
                "--load stairwell --device 9x64 --valves 11",
                "11 valves need 24 logical pages each, the device has 256",
            ),
            (
                "--load random --over writes --measure used,second",
                "along writes only used, records, fullest, levels are known, not second",
            ),
            (
                "--trace no/such/file",
                "no/such/file: No such file or directory (os error 2)",
            ),
        ] {
            assert_eq!(parse(line).expect_err("wrong"), wrong);
        }
        assert!(parse("--help").expect("help").is_none());
    }
}
