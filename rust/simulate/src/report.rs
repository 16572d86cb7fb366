//! The tables and the comma-separated values.

use std::fmt::Write;
use std::time::Duration;

use crate::counts::ratio;
use crate::memory::paper_bytes;
use crate::Outcome;

/// The tables.
#[derive(Clone, Copy, Debug, PartialEq, Eq)]
pub enum Table {
    /// What was written, copied and erased.
    Writing,
    /// What lookups cost.
    Lookups,
    /// What the table takes.
    Memory,
    /// How long calls took.
    Time,
}

impl Table {
    /// All tables, in the order in which they are printed.
    pub const ALL: [Table; 4] = [Table::Writing, Table::Lookups, Table::Memory, Table::Time];

    fn heading(self) -> &'static str {
        match self {
            Table::Writing => "Writing (pages)",
            Table::Lookups => {
                "Lookups (the load's own; sweep: one of every written logical page at the end)"
            }
            Table::Memory => "Memory (bytes, at the end; peak: after any flush)",
            Table::Time => "Time (microseconds; differs from run to run)",
        }
    }
}

/// A number that each run comes to.
pub struct Column {
    /// Its name, as a head and for `--measure`.
    pub name: &'static str,
    /// What it says.
    pub meaning: &'static str,
    /// The table it stands in.
    pub table: Table,
    /// How many decimals it has.
    decimals: usize,
    value: fn(&Outcome) -> f64,
}

impl std::fmt::Debug for Column {
    fn fmt(&self, f: &mut std::fmt::Formatter<'_>) -> std::fmt::Result {
        f.write_str(self.name)
    }
}

impl Column {
    /// Its value.
    pub fn value(&self, outcome: &Outcome) -> f64 {
        (self.value)(outcome)
    }

    fn text(&self, outcome: &Outcome) -> String {
        format!("{:.*}", self.decimals, self.value(outcome))
    }
}

const fn exact(
    name: &'static str,
    meaning: &'static str,
    table: Table,
    decimals: usize,
    value: fn(&Outcome) -> f64,
) -> Column {
    Column {
        name,
        meaning,
        table,
        decimals,
        value,
    }
}

const fn writing(name: &'static str, meaning: &'static str, value: fn(&Outcome) -> f64) -> Column {
    exact(name, meaning, Table::Writing, 0, value)
}

const fn memory(name: &'static str, meaning: &'static str, value: fn(&Outcome) -> f64) -> Column {
    exact(name, meaning, Table::Memory, 0, value)
}

const fn time(name: &'static str, meaning: &'static str, value: fn(&Outcome) -> f64) -> Column {
    exact(name, meaning, Table::Time, 2, value)
}

fn micros(time: Duration) -> f64 {
    time.as_secs_f64() * 1e6
}

/// All columns.
pub static COLUMNS: &[Column] = &[
    writing("writes", "pages that the load wrote", |o| {
        o.writing.written as f64
    }),
    writing("flushes", "flushes", |o| o.writing.flushes as f64),
    exact(
        "batch",
        "pages of a flush, on average",
        Table::Writing,
        1,
        |o| ratio(o.writing.flushed, o.writing.flushes),
    ),
    writing("collections", "collections", |o| {
        o.writing.collections as f64
    }),
    writing("copied", "pages that collections copied", |o| {
        o.writing.copied as f64
    }),
    writing(
        "copied_most",
        "most pages that one collection copied",
        |o| o.writing.copied_most as f64,
    ),
    writing("erased", "blocks erased", |o| o.writing.erased as f64),
    writing(
        "erased_most",
        "most blocks that one collection erased",
        |o| o.writing.erased_most as f64,
    ),
    exact(
        "amplification",
        "pages programmed for each page that the load wrote",
        Table::Writing,
        3,
        |o| o.writing.amplification(),
    ),
    writing("compactions", "compactions of all groups", |o| {
        o.writing.compactions as f64
    }),
    writing(
        "programmed",
        "pages that flushes and collections programmed",
        |o| o.writing.programmed() as f64,
    ),
    writing("strides", "stride runs of what each wrote", |o| {
        o.writing.strides as f64
    }),
    writing("learned", "records learned from it", |o| {
        o.writing.learned as f64
    }),
    exact(
        "lookups",
        "lookups that the load made",
        Table::Lookups,
        0,
        |o| o.lookups.levels.count() as f64,
    ),
    exact(
        "second",
        "of a hundred lookups that found their page, those with a second read",
        Table::Lookups,
        2,
        |o| 100.0 * ratio(o.lookups.second_reads, o.lookups.found),
    ),
    exact(
        "levels",
        "levels that a lookup looked at, on average",
        Table::Lookups,
        2,
        |o| o.lookups.levels.mean(),
    ),
    exact(
        "levels_99",
        "levels that 99 of a hundred lookups don't exceed",
        Table::Lookups,
        0,
        |o| o.lookups.levels.percentile(99) as f64,
    ),
    exact("levels_most", "levels, highest", Table::Lookups, 0, |o| {
        o.lookups.levels.highest() as f64
    }),
    exact(
        "sweep_found",
        "written logical pages",
        Table::Lookups,
        0,
        |o| o.sweep.found as f64,
    ),
    exact(
        "sweep_second",
        "sweep: of a hundred written pages, those with a second read",
        Table::Lookups,
        2,
        |o| 100.0 * ratio(o.sweep.second_reads, o.sweep.found),
    ),
    exact(
        "sweep_levels",
        "sweep: levels on average",
        Table::Lookups,
        2,
        |o| o.sweep.levels.mean(),
    ),
    exact(
        "sweep_99",
        "sweep: levels that 99 of a hundred don't exceed",
        Table::Lookups,
        0,
        |o| o.sweep.levels.percentile(99) as f64,
    ),
    exact(
        "sweep_most",
        "sweep: levels, highest",
        Table::Lookups,
        0,
        |o| o.sweep.levels.highest() as f64,
    ),
    memory("records", "records", |o| o.usage.records as f64),
    memory("approximate", "approximate records", |o| {
        o.approximate.records as f64
    }),
    memory("offsets", "offsets that approximate records own", |o| {
        o.approximate.offsets as f64
    }),
    memory("fullest", "records of the fullest group", |o| {
        o.usage.fullest as f64
    }),
    memory("owned", "groups whose owners are in use", |o| {
        o.usage.owned_groups as f64
    }),
    memory("used", "bytes of the groups in use", |o| {
        o.usage.bytes() as f64
    }),
    memory(
        "peak",
        "most bytes of the groups in use after any flush",
        |o| o.peak as f64,
    ),
    exact(
        "used_group",
        "bytes in use for each group",
        Table::Memory,
        0,
        |o| ratio(o.usage.bytes(), o.usage.groups),
    ),
    exact(
        "used_page",
        "bytes in use for each written logical page",
        Table::Memory,
        2,
        |o| ratio(o.usage.bytes(), o.sweep.found),
    ),
    memory(
        "plain",
        "four bytes for each logical page: a plain table",
        |o| 4.0 * f64::from(o.case.numbers.logical_pages),
    ),
    memory("reserved", "bytes of the state", |o| {
        o.case.numbers.state_len().unwrap_or(0) as f64
    }),
    memory("spare", "bytes of the spare area", |o| {
        4.0 * o.case.numbers.spare_len().unwrap_or(0) as f64
    }),
    exact(
        "paper",
        "as the paper counts: eight bytes for each written page, over records and owners",
        Table::Memory,
        2,
        |o| ratio(8 * o.sweep.found, paper_bytes(o.usage, o.approximate)),
    ),
    time("flush_us", "a flush, on average", |o| {
        micros(o.times.flush.mean())
    }),
    time("flush_most", "the longest flush", |o| {
        micros(o.times.flush.longest())
    }),
    time("lookup_us", "a lookup, on average", |o| {
        micros(o.times.lookup.mean())
    }),
    time("lookup_most", "the longest lookup", |o| {
        micros(o.times.lookup.longest())
    }),
    time("collect_us", "a collection, on average", |o| {
        micros(o.times.collect.mean())
    }),
    time("collect_most", "the longest collection", |o| {
        micros(o.times.collect.longest())
    }),
    time("compact_us", "a group's compaction, on average", |o| {
        micros(o.times.compact.mean())
    }),
    time("compact_most", "the longest compaction of a group", |o| {
        micros(o.times.compact.longest())
    }),
    time(
        "stall_most",
        "the longest wait for the buffer to be emptied, the chip's own time left out",
        |o| micros(o.times.stall.longest()),
    ),
];

/// The column of a name.
pub fn column(name: &str) -> Option<&'static Column> {
    COLUMNS.iter().find(|column| column.name == name)
}

/// The heads of what says which run it is.
const LABELS: [&str; 6] = ["load", "device", "bound", "compact", "sync", "buffer"];

fn labels(outcome: &Outcome) -> [String; 6] {
    let case = &outcome.case;
    let numbers = case.numbers;
    [
        case.load.name().to_string(),
        device_name(outcome),
        numbers.error_bound.to_string(),
        case.compact.to_string(),
        case.sync.to_string(),
        case.buffer.to_string(),
    ]
}

/// A device as `--device` takes it.
pub fn device_name(outcome: &Outcome) -> String {
    let numbers = outcome.case.numbers;
    format!(
        "{}x{}x{}",
        numbers.blocks, numbers.block_pages, numbers.logical_pages
    )
}

/// All runs as comma-separated values, a line each.
pub fn csv(outcomes: &[Outcome], exact: bool) -> String {
    let columns = || {
        COLUMNS
            .iter()
            .filter(move |column| !exact || column.table != Table::Time)
    };
    let heads = LABELS
        .into_iter()
        .chain(columns().map(|column| column.name));
    let mut out = line(heads.map(String::from));
    for outcome in outcomes {
        let values = columns().map(|column| column.text(outcome));
        out += &line(labels(outcome).into_iter().chain(values));
    }
    out
}

fn line(cells: impl Iterator<Item = String>) -> String {
    Vec::from_iter(cells).join(",") + "\n"
}

/// All runs as tables, a line each; of what says which run it is, only what
/// differs, and always the load.
pub fn tables(outcomes: &[Outcome], exact: bool) -> String {
    let mut out = String::new();
    for table in Table::ALL {
        if !exact || table != Table::Time {
            let columns = Vec::from_iter(COLUMNS.iter().filter(|column| column.table == table));
            out += &format!("{}\n\n{}\n", table.heading(), shown(outcomes, &columns));
        }
    }
    out += &format!("In all runs: {}.\n", common(outcomes));
    out
}

/// One table of some columns.
pub fn table(outcomes: &[Outcome], columns: &[&Column]) -> String {
    format!(
        "{}\nIn all runs: {}.\n",
        shown(outcomes, columns),
        common(outcomes)
    )
}

/// Whether runs differ in what has this label; the load is always told.
fn differs(outcomes: &[Outcome], label: usize) -> bool {
    let first = outcomes.first().map(labels);
    let first = first.map(|labels| labels[label].clone());
    let other = |outcome| Some(&labels(outcome)[label]) != first.as_ref();
    label == 0 || outcomes.iter().any(other)
}

/// What all runs have in common.
fn common(outcomes: &[Outcome]) -> String {
    let first = outcomes.first().map(labels).unwrap_or_default();
    let same = (0..LABELS.len()).filter(|label| !differs(outcomes, *label));
    let same = same.map(|label| format!("{} {}", LABELS[label], first[label]));
    Vec::from_iter(same).join(", ")
}

fn shown(outcomes: &[Outcome], columns: &[&Column]) -> String {
    let differing = (0..LABELS.len()).filter(|label| differs(outcomes, *label));
    let differing = Vec::from_iter(differing);
    let heads = differing.iter().map(|label| LABELS[*label]);
    let heads = heads.chain(columns.iter().map(|column| column.name));
    let mut rows = vec![Vec::from_iter(heads.map(String::from))];
    for outcome in outcomes {
        let labels = labels(outcome);
        let named = differing.iter().map(|label| labels[*label].clone());
        let values = columns.iter().map(|column| column.text(outcome));
        rows.push(named.chain(values).collect());
    }
    aligned(&rows)
}

/// Rows of cells, the first column to the left and the others to the right.
pub fn aligned(rows: &[Vec<String>]) -> String {
    let columns = rows.first().map_or(0, Vec::len);
    let width = |column: usize| rows.iter().map(|row| row[column].len()).max().unwrap_or(0);
    let widths: Vec<usize> = (0..columns).map(width).collect();
    let mut out = String::new();
    for row in rows {
        for (column, (cell, width)) in row.iter().zip(&widths).enumerate() {
            match column {
                0 => write!(out, "{cell:<width$}"),
                _ => write!(out, "  {cell:>width$}"),
            }
            .expect("a string takes it");
        }
        out.push('\n');
    }
    out
}

#[cfg(test)]
mod tests {
    use super::*;
    use crate::options::Options;
    use crate::run;

    fn outcomes() -> Vec<Outcome> {
        let line = "--load sequential --device 9x64 --bound 0,1 --writes 512 --reads 0";
        let options = Options::parse(line.split_whitespace().map(String::from));
        let cases = options.expect("options").expect("no help").cases;
        let ran = cases.iter().map(|case| run(case, &mut |_| ()));
        ran.map(|outcome| outcome.expect("accepted")).collect()
    }

    #[test]
    fn a_line_for_each_run() {
        let outcomes = outcomes();
        let csv = csv(&outcomes, true);
        let lines = Vec::from_iter(csv.lines().map(|line| Vec::from_iter(line.split(','))));
        assert_eq!(lines.len(), 3);
        assert!(lines.iter().all(|line| line.len() == lines[0].len()));
        let cell = |row: usize, name: &str| {
            let at = lines[0].iter().position(|head| *head == name);
            lines[row][at.expect("a column")]
        };
        // Two rounds of 256 pages in four blocks each: 512 pages, 8 flushes; the
        // chip has room for 8 blocks, so none was collected.
        for row in [1, 2] {
            assert_eq!(cell(row, "device"), "9x64x256");
            assert_eq!(
                [
                    cell(row, "writes"),
                    cell(row, "flushes"),
                    cell(row, "batch")
                ],
                ["512", "8", "64.0"]
            );
            assert_eq!(
                [cell(row, "collections"), cell(row, "amplification")],
                ["0", "1.000"]
            );
            assert_eq!(
                [cell(row, "records"), cell(row, "used"), cell(row, "plain")],
                ["4", "44", "1024"]
            );
            assert_eq!(
                [cell(row, "reserved"), cell(row, "paper")],
                ["5702", "64.00"]
            );
        }
        assert_eq!([cell(1, "spare"), cell(2, "spare")], ["2304", "6912"]);
        let tables = tables(&outcomes, true);
        let common = "In all runs: device 9x64x256, compact 0, sync 0, buffer 64.\n";
        assert!(tables.ends_with(common), "{tables}");
        assert!(!tables.contains("Time"));
        let columns = ["used", "second"].map(|name| column(name).expect("a column"));
        let lines = [
            "load        bound  used  second",
            "sequential      0    44    0.00",
        ];
        let table = table(&outcomes, &columns);
        let first = Vec::from_iter(table.lines().take(2));
        assert_eq!(first, lines);
    }

    #[test]
    fn names_are_told_apart() {
        for (at, column) in COLUMNS.iter().enumerate() {
            assert!(std::ptr::eq(
                super::column(column.name).expect("named"),
                &COLUMNS[at]
            ));
            assert!(!column.meaning.is_empty());
        }
    }
}
