//! Replays loads through the table and says what they cost; `--help` tells how.

#![forbid(unsafe_code)]

use std::process::ExitCode;

use hedjosur_simulate::options::{Options, HELP};

fn main() -> ExitCode {
    match show(std::env::args().skip(1)) {
        Ok(()) => ExitCode::SUCCESS,
        Err(wrong) => {
            eprintln!("simulate: {wrong}");
            ExitCode::from(2)
        }
    }
}

fn show(arguments: impl Iterator<Item = String>) -> Result<(), String> {
    let Some(options) = Options::parse(arguments)? else {
        print!("{HELP}");
        return Ok(());
    };
    let outcomes = options.run(&mut |number, written| progress(&options, number, written))?;
    print!("{}", options.text(&outcomes));
    if let Some(drawing) = &options.drawing {
        let written = std::fs::write(&drawing.file, drawing.svg(&outcomes));
        written.map_err(|error| format!("{}: {error}", drawing.file.display()))?;
    }
    Ok(())
}

/// A line on standard error at each quarter of a run.
fn progress(options: &Options, number: usize, written: u64) {
    let case = &options.cases[number];
    let quarter = case.load.writes(case.shape).div_ceil(100).max(1) * 25;
    if !options.quiet && written.is_multiple_of(quarter) {
        let (name, bound) = (case.load.name(), case.numbers.error_bound);
        let (which, all) = (number + 1, options.cases.len());
        eprintln!("run {which} of {all}: {name}, bound {bound}: {written} pages written");
    }
}
