//! Times the proved code, through its static libraries, beside the baseline: the
//! same inputs in the same run, as ratios. First the inner functions, then the
//! calls, those of the plain engine last.
//!
//! `cargo run --release -p hedjosur-bench` in this workspace, best on a machine
//! with nothing else to do; behind `--` the name of a function, and of an input if
//! you like, as the table has them: `-- insert "256 records, flat"`.

#![forbid(unsafe_code)]

mod batches;
mod buffers;
mod calls;
mod groups;
mod kinds;
mod passes;
mod plain;
mod timing;

use std::process::ExitCode;

use timing::Comparison;

/// What is timed, by the function's name in the table.
const PARTS: [(&str, fn()); 25] = [
    ("learn", batches::learning),
    ("sort", batches::sorting),
    ("program", passes::programming),
    ("sound", groups::soundness),
    ("find", groups::finding),
    ("insert", groups::insertion),
    ("compact", groups::compaction),
    ("lookup", calls::lookup),
    ("lookup", calls::lookup_of_discarded),
    ("discard", calls::discard),
    ("why", calls::why),
    ("compaction", calls::compaction),
    ("format", calls::format),
    ("flush", calls::flush),
    ("flush", calls::flush_of_patterns),
    ("flush", calls::flush_of_discarded),
    ("collection", calls::collection),
    ("agreement", calls::agreement),
    ("plain format", plain::format),
    ("plain lookup", plain::lookup),
    ("plain discard", plain::discard),
    ("plain flush", plain::flush),
    ("plain flush", plain::flush_of_patterns),
    ("plain flush", plain::flush_of_orders),
    ("plain collection", plain::collection),
];

fn main() -> ExitCode {
    let function = std::env::args().nth(1);
    let asked: Vec<_> = PARTS
        .into_iter()
        .filter(|(name, _)| function.as_deref().is_none_or(|function| function == *name))
        .collect();
    if asked.is_empty() {
        let mut names = PARTS.map(|(name, _)| name).to_vec();
        names.dedup();
        eprintln!("there is no such function; there are {}", names.join(", "));
        return ExitCode::from(2);
    }
    println!(
        "{:<16} {:<30} {:>12} {:>12} {:>8}",
        "function", "input", "baseline µs", "proved µs", "ratio"
    );
    for (_, time) in asked {
        time();
    }
    ExitCode::SUCCESS
}

/// Times one line of the table and prints it, unless another input was asked for.
fn row(function: &str, input: &str, times: impl FnOnce() -> Comparison) {
    if std::env::args().nth(2).is_some_and(|asked| asked != input) {
        return;
    }
    let Comparison { baseline, proved } = times();
    let ratio = proved / baseline;
    println!("{function:<16} {input:<30} {baseline:>12.3} {proved:>12.3} {ratio:>8.2}");
}
