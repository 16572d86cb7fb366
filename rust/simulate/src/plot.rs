//! The drawing of runs: a panel for each measure, a line for each kind of run.

use std::fmt::Write;

use crate::chart::{grouped, place, spaced, Chart, Line, Panel};
use crate::report::{device_name, Column};
use crate::run::Sample;
use crate::Outcome;

/// What a drawing goes along.
#[derive(Clone, Copy, Debug, PartialEq, Eq)]
pub enum Over {
    /// The error bound.
    Bound,
    /// The period of compaction.
    Compact,
    /// The period of syncs.
    Sync,
    /// The buffer's pages.
    Buffer,
    /// The device.
    Device,
    /// The pages written: the table along each run, for measures that are
    /// [`SAMPLED`].
    Writes,
}

impl Over {
    const ALL: [Over; 6] = [
        Over::Bound,
        Over::Compact,
        Over::Sync,
        Over::Buffer,
        Over::Device,
        Over::Writes,
    ];

    fn name(self) -> &'static str {
        match self {
            Over::Bound => "bound",
            Over::Compact => "compact",
            Over::Sync => "sync",
            Over::Buffer => "buffer",
            Over::Device => "device",
            Over::Writes => "writes",
        }
    }

    /// What a drawing says below its panels.
    pub fn meaning(self) -> &'static str {
        match self {
            Over::Bound => "error bound g",
            Over::Compact => "pages written between compactions of all groups (0: never)",
            Over::Sync => "pages written between syncs (0: never)",
            Over::Buffer => "pages of the buffer",
            Over::Device => "device: blocks x pages of a block x logical pages",
            Over::Writes => "pages written",
        }
    }

    /// The one of a name.
    pub fn named(name: &str) -> Option<Over> {
        Over::ALL.into_iter().find(|over| over.name() == name)
    }

    /// What an outcome has there.
    fn value(self, outcome: &Outcome) -> String {
        let case = &outcome.case;
        match self {
            Over::Bound => case.numbers.error_bound.to_string(),
            Over::Compact => case.compact.to_string(),
            Over::Sync => case.sync.to_string(),
            Over::Buffer => case.buffer.to_string(),
            Over::Device => device_name(outcome),
            Over::Writes => String::new(),
        }
    }
}

/// The different values that outcomes have, in the order in which they come.
fn values(outcomes: &[Outcome], value: impl Fn(&Outcome) -> String) -> Vec<String> {
    distinct(outcomes.iter().map(value))
}

/// The different ones of some values, in the order in which they come.
pub fn distinct<T: PartialEq>(all: impl Iterator<Item = T>) -> Vec<T> {
    let mut values = Vec::new();
    for value in all {
        if !values.contains(&value) {
            values.push(value);
        }
    }
    values
}

/// The name of a line: the load, and what else differs.
fn line_name(outcome: &Outcome, differing: &[Over]) -> String {
    let mut name = outcome.case.load.name().to_string();
    for over in differing {
        write!(name, ", {} {}", over.name(), over.value(outcome)).expect("a string takes it");
    }
    name
}

/// Draws measures of runs.
pub fn draw(outcomes: &[Outcome], measures: &[&Column], over: Option<Over>, log: bool) -> String {
    let several = |over: &Over| values(outcomes, |outcome| over.value(outcome)).len() > 1;
    let over = over.or_else(|| Over::ALL.into_iter().find(several));
    let over = over.unwrap_or(Over::Bound);
    let differing = Vec::from_iter(
        Over::ALL
            .into_iter()
            .filter(|other| *other != over && several(other)),
    );
    let last = outcomes.iter().map(|outcome| outcome.writing.written).max();
    let last = last.unwrap_or(1).max(1) as f64;
    let ticks = spaced(match over {
        Over::Writes => Vec::from_iter((0..=4).map(|i| grouped(last * f64::from(i) / 4.0))),
        _ => values(outcomes, |outcome| over.value(outcome)),
    });
    let points = |outcome: &Outcome, measure: &Column| match over {
        Over::Writes => {
            let at = |sample: &Sample| (sample.writes as f64 / last, sampled(measure, sample));
            outcome.samples.iter().map(at).collect()
        }
        _ => {
            let place = place(&ticks, &over.value(outcome));
            Vec::from_iter(place.map(|place| (place, measure.value(outcome))))
        }
    };
    let line = |measure: &Column, name: &String| {
        let named = |outcome: &&Outcome| line_name(outcome, &differing) == *name;
        let named = outcomes.iter().filter(named);
        let points = named.flat_map(|outcome| points(outcome, measure));
        Line {
            name: name.clone(),
            points: points.collect(),
        }
    };
    let names = values(outcomes, |outcome| line_name(outcome, &differing));
    let panel = |measure: &&Column| Panel {
        meaning: measure.meaning.to_string(),
        lines: names.iter().map(|name| line(measure, name)).collect(),
    };
    let chart = Chart {
        panels: measures.iter().map(panel).collect(),
        along: over.meaning(),
        ticks,
        reach: 0.0,
        log,
    };
    chart.svg()
}

/// The measures that are known at each moment of a run.
pub const SAMPLED: [&str; 4] = ["used", "records", "fullest", "levels"];

/// A measure of the table at a moment of a run.
fn sampled(measure: &Column, sample: &Sample) -> f64 {
    match measure.name {
        "used" => sample.usage.bytes() as f64,
        "records" => sample.usage.records as f64,
        "fullest" => sample.usage.fullest as f64,
        "levels" => sample.levels,
        name => unreachable!("{name} is not sampled"),
    }
}

#[cfg(test)]
mod tests {
    use super::*;
    use crate::options::Options;
    use crate::report::column;
    use crate::run;

    #[test]
    fn a_drawing_has_a_line_for_each_load_and_a_point_for_each_bound() {
        let line = "--load sequential,random --device 9x64 --bound 0,1,4 --writes 300";
        let options = Options::parse(line.split_whitespace().map(String::from));
        let cases = options.expect("options").expect("no help").cases;
        let ran = cases
            .iter()
            .map(|case| run(case, &mut |_| ()).expect("accepted"));
        let outcomes = Vec::from_iter(ran);
        let measures = ["used", "levels"].map(|name| column(name).expect("a column"));
        let along = |over| draw(&outcomes, &measures, over, false);
        let drawn = along(None);
        assert_eq!(drawn.matches("<polyline").count(), 4);
        assert!(drawn.contains("error bound g") && drawn.ends_with("</svg>\n"));
        let first = drawn
            .lines()
            .find(|line| line.starts_with("<polyline"))
            .expect("a line");
        assert_eq!(first.matches(',').count(), 3);
        assert!(along(Some(Over::Writes)).contains("sequential, bound 4"));
    }
}
