//! How often lookups read twice, by load and error bound, before and after a change
//! of the rule by which runs are learned.
//!
//! What a build of the library comes to is a small text file, [`Figures`]; a page
//! shows two of them beside each other, [`Comparison`].

use std::path::Path;

use crate::chart::{spaced, Chart, Line, Panel};
use crate::counts::{ratio, Lookups};
use crate::options::Options;
use crate::plot::{distinct, Over};
use crate::report::aligned;
use crate::Outcome;

/// The loads made by a rule, on the device on which docs/COSTS.md compares bounds.
const MADE: [&str; 4] = [
    "--load",
    "sequential,strided,clustered,random,mixed,skewed,stairwell,hourly",
    "--device",
    "33x256",
];

/// The traces, each on its own device.
const TRACES: [&str; 3] = ["sqlite-wal", "git", "ext4-tree"];

/// The error bounds.
const BOUNDS: [&str; 2] = ["--bound", "1,2,4,8,15"];

/// The heads of the columns of a file.
const HEADS: [&str; 6] = [
    "load",
    "g",
    "pages",
    "pages_second",
    "reads",
    "reads_second",
];

/// Which lookups are counted.
#[derive(Clone, Copy, Debug, PartialEq, Eq)]
pub enum Asked {
    /// One of every written logical page, at the end.
    Pages,
    /// Those that the load makes.
    Reads,
}

impl Asked {
    /// Both.
    pub const ALL: [Asked; 2] = [Asked::Pages, Asked::Reads];

    /// The name of the drawing.
    pub fn drawing(self) -> &'static str {
        match self {
            Asked::Pages => "pages.svg",
            Asked::Reads => "reads.svg",
        }
    }

    /// What is looked up.
    fn meaning(self) -> &'static str {
        match self {
            Asked::Pages => "every written logical page once, at the end",
            Asked::Reads => "what the load reads",
        }
    }
}

/// Lookups that found their page.
#[derive(Clone, Copy, Debug, PartialEq, Eq)]
pub struct Found {
    /// All of them.
    pub lookups: u64,
    /// Those that found it by a second read.
    pub second_reads: u64,
}

impl Found {
    fn of(lookups: &Lookups) -> Found {
        Found {
            lookups: lookups.found,
            second_reads: lookups.second_reads,
        }
    }

    /// Second reads of a hundred lookups.
    fn percent(self) -> f64 {
        100.0 * ratio(self.second_reads, self.lookups)
    }
}

/// What a load came to at an error bound.
#[derive(Clone, Debug, PartialEq, Eq)]
pub struct Figure {
    /// The load's name.
    pub load: String,
    /// The error bound.
    pub bound: u32,
    /// Of every written logical page, at the end.
    pub pages: Found,
    /// Of what the load read.
    pub reads: Found,
}

impl Figure {
    fn of(outcome: &Outcome) -> Figure {
        Figure {
            load: outcome.case.load.name().to_string(),
            bound: outcome.case.numbers.error_bound,
            pages: Found::of(&outcome.sweep),
            reads: Found::of(&outcome.lookups),
        }
    }

    fn asked(&self, asked: Asked) -> Found {
        match asked {
            Asked::Pages => self.pages,
            Asked::Reads => self.reads,
        }
    }

    fn parse(line: &str) -> Option<Figure> {
        let mut words = line.split_whitespace();
        let load = words.next()?.to_string();
        let numbers: Result<Vec<u64>, _> = words.map(str::parse).collect();
        let found = |lookups, second_reads| Found {
            lookups,
            second_reads,
        };
        match numbers.ok()?[..] {
            [bound, pages, pages_second, reads, reads_second] => Some(Figure {
                load,
                bound: u32::try_from(bound).ok()?,
                pages: found(pages, pages_second),
                reads: found(reads, reads_second),
            }),
            _ => None,
        }
    }

    fn cells(&self) -> Vec<String> {
        let found = Asked::ALL.map(|asked| self.asked(asked));
        let counts = found.iter().flat_map(|f| [f.lookups, f.second_reads]);
        let names = [self.load.clone(), self.bound.to_string()];
        let counts = counts.map(|count| count.to_string());
        names.into_iter().chain(counts).collect()
    }
}

/// What a build of the library came to, a line for each load and bound.
#[derive(Clone, Debug, PartialEq, Eq)]
pub struct Figures(pub Vec<Figure>);

impl Figures {
    /// Replays the loads through the library; the traces too where their folder is
    /// named.
    pub fn count(traces: Option<&str>) -> Result<Figures, String> {
        let mut figures = counted(&MADE.map(String::from))?;
        if let Some(folder) = traces {
            let file = |name| ["--trace".to_string(), format!("{folder}/{name}.xz")];
            figures.extend(counted(&TRACES.map(file).concat())?);
        }
        Ok(Figures(figures))
    }

    /// Reads a file's text.
    pub fn parse(text: &str) -> Result<Figures, String> {
        let lines = (1..).zip(text.lines()).skip(1);
        let figures = lines.map(|(number, line)| {
            let bad = || format!("line {number} is no line of figures: {line}");
            Figure::parse(line).ok_or_else(bad)
        });
        figures.collect::<Result<_, _>>().map(Figures)
    }

    /// The file's text.
    pub fn text(&self) -> String {
        let mut rows = vec![HEADS.map(String::from).to_vec()];
        rows.extend(self.0.iter().map(Figure::cells));
        aligned(&rows)
    }

    /// Second reads of a hundred lookups, where the load was run with that bound.
    fn percent(&self, load: &str, bound: u32, asked: Asked) -> Option<f64> {
        let mut figures = self.0.iter();
        let figure = figures.find(|figure| figure.load == load && figure.bound == bound);
        figure.map(|figure| figure.asked(asked).percent())
    }
}

/// Runs loads with each bound.
fn counted(loads: &[String]) -> Result<Vec<Figure>, String> {
    let bounds = BOUNDS.map(String::from);
    let Some(options) = Options::parse(loads.iter().cloned().chain(bounds))? else {
        unreachable!("no help is asked for")
    };
    let outcomes = options.run(&mut |_, _| ())?;
    Ok(outcomes.iter().map(Figure::of).collect())
}

/// The figures of two builds.
#[derive(Clone, Debug, PartialEq, Eq)]
pub struct Comparison {
    /// Of the build before the change.
    pub before: Figures,
    /// Of the build after it.
    pub after: Figures,
}

impl Comparison {
    /// Reads `before.txt` and `after.txt` of a folder.
    pub fn open(folder: &Path) -> Result<Comparison, String> {
        let figures = |name| {
            let file = folder.join(name);
            let failed = |error: &dyn std::fmt::Display| format!("{}: {error}", file.display());
            let text = std::fs::read_to_string(&file).map_err(|error| failed(&error))?;
            Figures::parse(&text).map_err(|error| failed(&error))
        };
        Ok(Comparison {
            before: figures("before.txt")?,
            after: figures("after.txt")?,
        })
    }

    /// The tables and the drawings' places, as a page has them.
    pub fn section(&self) -> String {
        let parts = Asked::ALL.map(|asked| {
            let (table, meaning, file) = (self.table(asked), asked.meaning(), asked.drawing());
            format!(
                "\nLooked up: {meaning}.\n\n{table}\n\
                 ![Second reads of a hundred lookups, by bound, before and after: {meaning}]\
                 (second-reads/{file})\n"
            )
        });
        parts.concat() + "\n"
    }

    /// A line for each load, a column for each bound: before and after.
    fn table(&self, asked: Asked) -> String {
        let bounds = self.bounds();
        let heads = Vec::from_iter(bounds.iter().map(|bound| format!(" g {bound} |")));
        let rule = "---|".repeat(bounds.len());
        let mut table = format!("| load |{}\n|---|{rule}\n", heads.concat());
        for load in self.loads() {
            let cell = |bound: &u32| {
                let both = [&self.before, &self.after];
                let [before, after] = both.map(|build| shown(build.percent(load, *bound, asked)));
                format!(" {before} → {after} |")
            };
            let cells = Vec::from_iter(bounds.iter().map(cell));
            table += &format!("| {load} |{}\n", cells.concat());
        }
        table
    }

    /// A panel for each build, a line for each load.
    pub fn drawing(&self, asked: Asked) -> String {
        let bounds = self.bounds();
        let ticks = spaced(bounds.iter().map(u32::to_string).collect());
        let line = |build: &Figures, load: &str| {
            let points = bounds.iter().zip(&ticks).filter_map(|(bound, (place, _))| {
                let percent = build.percent(load, *bound, asked)?;
                Some((*place, percent))
            });
            Line {
                name: load.to_string(),
                points: points.collect(),
            }
        };
        let panel = |name: &str, build: &Figures| Panel {
            meaning: format!(
                "{name}: second reads of a hundred lookups ({})",
                asked.meaning()
            ),
            lines: self.loads().iter().map(|load| line(build, load)).collect(),
        };
        let panels = vec![panel("before", &self.before), panel("after", &self.after)];
        let chart = Chart {
            panels,
            along: Over::Bound.meaning(),
            ticks,
            reach: 100.0,
            log: false,
        };
        chart.svg()
    }

    fn all(&self) -> impl Iterator<Item = &Figure> {
        self.before.0.iter().chain(&self.after.0)
    }

    fn loads(&self) -> Vec<&str> {
        distinct(self.all().map(|figure| &figure.load[..]))
    }

    fn bounds(&self) -> Vec<u32> {
        distinct(self.all().map(|figure| figure.bound))
    }
}

/// A figure in a table, a dash where there is none.
fn shown(percent: Option<f64>) -> String {
    percent.map_or("–".to_string(), |percent| format!("{percent:.1}"))
}

#[cfg(test)]
mod tests {
    use super::*;

    const BEFORE: &str = "\
load    g  pages  pages_second  reads  reads_second
mixed   1      8             1      4             3
mixed  15      8             2      4             4
git     1      3             2      0             0
";

    fn comparison() -> Comparison {
        let before = Figures::parse(BEFORE).expect("figures");
        let after = BEFORE.lines().take(3).collect::<Vec<_>>().join("\n");
        let after = after.replace("8             1", "8             0");
        let after = Figures::parse(&after).expect("figures");
        Comparison { before, after }
    }

    #[test]
    fn a_file_is_read_as_it_is_written() {
        let figures = Figures::parse(BEFORE).expect("figures");
        assert_eq!(figures.text(), BEFORE);
        assert_eq!(figures.0.len(), 3);
        let (lookups, second_reads) = (8, 2);
        let found = Found {
            lookups,
            second_reads,
        };
        assert_eq!((figures.0[1].bound, figures.0[1].pages), (15, found));
        for line in ["", "git 1 2 3 4", "git 1 2 3 4 x", "git -1 2 3 4 5"] {
            let wrong = Figures::parse(&format!("{BEFORE}{line}\n")).expect_err("no figures");
            assert_eq!(wrong, format!("line 5 is no line of figures: {line}"));
        }
    }

    #[test]
    fn a_table_has_both_builds() {
        let lines = [
            "| load | g 1 | g 15 |",
            "|---|---|---|",
            "| mixed | 12.5 → 0.0 | 25.0 → 25.0 |",
            "| git | 66.7 → – | – → – |",
            "",
        ];
        let comparison = comparison();
        assert_eq!(comparison.table(Asked::Pages), lines.join("\n"));
        let section = comparison.section();
        assert!(section.contains("| mixed | 75.0 → 75.0 | 100.0 → 100.0 |"));
        assert!(section.contains("](second-reads/reads.svg)"));
    }

    #[test]
    fn a_drawing_has_a_panel_for_each_build_with_the_same_scale() {
        let drawn = comparison().drawing(Asked::Pages);
        assert_eq!(drawn.matches("<polyline").count(), 4);
        assert_eq!(drawn.matches(">100</text>").count(), 2);
        assert_eq!(drawn.matches(">15</text>").count(), 2);
    }
}
