//! Records on levels: levels as rows, level 0 on top, and offsets as columns.
//!
//! An accurate record is a cell for each member on a thin line over its range; a single is
//! one cell. An approximate record is a cell for each member on a hatched bar. Where
//! columns are wide enough, an offset that is covered and is no member is an empty cell.

use std::ops::RangeInclusive;

use hedjosur_model::record::{self, Kind};

use super::paper::Paper;
use crate::listing;

/// Columns that are narrower have no empty cells.
const WIDE: u32 = 10;
/// The widest and the narrowest column of a zoomed axis, and the room for all columns.
const COLUMNS: RangeInclusive<u32> = 3..=52;
const ROOM: u32 = 780;
/// What a stretch left out takes instead.
const BREAK: u32 = 56;
/// The fewest offsets that are worth a break: where columns are wide, and where they are
/// narrow.
const LEFT_OUT: [u8; 2] = [4, 20];
/// The least distance of two numbers of the scale.
const APART: u32 = 40;

/// Offsets as columns, in ascending runs; other offsets are left out.
#[derive(Clone, Debug, PartialEq, Eq)]
pub struct Axis {
    left: u32,
    column: u32,
    runs: Vec<RangeInclusive<u8>>,
}

/// A range of offsets.
pub type Offsets = RangeInclusive<u8>;

impl Axis {
    /// All offsets from this x on, each a column of this width.
    pub fn whole(left: u32, column: u32) -> Axis {
        Axis {
            left,
            column,
            runs: vec![0..=255],
        }
    }

    /// Offsets in use and a margin, with columns as wide as there is room for. Where these
    /// are narrow and would be wide for some of the offsets, those on which the picture
    /// centres, it has these alone.
    pub fn zoomed(left: u32, used: &[Offsets], centre: &[Offsets]) -> Axis {
        let axes = [used, centre].map(|ranges| Axis::fitting(left, ranges));
        let [all, some] = axes;
        match some.is_wide() && !all.is_wide() {
            true => some,
            false => all,
        }
    }

    /// These offsets and a margin, with columns as wide as there is room for.
    fn fitting(left: u32, ranges: &[Offsets]) -> Axis {
        let [short, long] = LEFT_OUT.map(|fewest| Axis::broken(left, ranges, fewest));
        match short.is_wide() {
            true => short,
            false => long,
        }
    }

    /// These offsets and a margin, with a break where so many others lie between.
    fn broken(left: u32, ranges: &[Offsets], fewest: u8) -> Axis {
        let mut shown = [false; 256];
        for range in ranges {
            let margin = range.start().saturating_sub(1)..=range.end().saturating_add(1);
            margin.for_each(|offset| shown[usize::from(offset)] = true);
        }
        let mut runs: Vec<Offsets> = Vec::new();
        for offset in (0..=255).filter(|&offset| shown[usize::from(offset)]) {
            match runs.last_mut() {
                Some(run) if offset - run.end() <= fewest => *run = *run.start()..=offset,
                _ => runs.push(offset..=offset),
            }
        }
        let offsets: u32 = runs.iter().map(|run| run.len() as u32).sum();
        let breaks = runs.len().saturating_sub(1) as u32 * BREAK;
        let column = ROOM.saturating_sub(breaks) / offsets.max(1);
        Axis {
            left,
            column: column.clamp(*COLUMNS.start(), *COLUMNS.end()),
            runs,
        }
    }

    /// Whether an offset has a column.
    pub fn shows(&self, offset: u8) -> bool {
        self.runs.iter().any(|run| run.contains(&offset))
    }

    /// The first and the last offset shown; 255 and 0 where there is none.
    pub fn ends(&self) -> (u8, u8) {
        let first = self.runs.first().map_or(255, |run| *run.start());
        (first, self.runs.last().map_or(0, |run| *run.end()))
    }

    /// From the left edge of the first cell to the right edge of the last, of those of
    /// these offsets that are shown.
    pub fn extent(&self, offsets: Offsets) -> Option<(u32, u32)> {
        let mut shown = offsets.filter(|&offset| self.shows(offset));
        let first = shown.next()?;
        let last = shown.next_back().unwrap_or(first);
        Some((self.x(first), self.x(last) + self.cell()))
    }

    /// The left edge of an offset's column, of an offset that is shown.
    pub fn x(&self, offset: u8) -> u32 {
        let mut x = self.left;
        for run in &self.runs {
            if offset <= *run.end() {
                return x + u32::from(offset.saturating_sub(*run.start())) * self.column;
            }
            x += run.len() as u32 * self.column + BREAK;
        }
        x - BREAK
    }

    /// The part of a column that a cell fills.
    pub fn cell(&self) -> u32 {
        self.column - (self.column / 4).max(1)
    }

    /// The middle of an offset's cell.
    pub fn middle(&self, offset: u8) -> u32 {
        self.x(offset) + self.cell() / 2
    }

    /// A column's width.
    pub fn column(&self) -> u32 {
        self.column
    }

    /// The left edge of the first column.
    pub fn left(&self) -> u32 {
        self.left
    }

    /// The right edge of the last column.
    pub fn end(&self) -> u32 {
        self.runs
            .last()
            .map_or(self.left, |run| self.x(*run.end()) + self.column)
    }

    /// Whether columns are wide enough for empty cells.
    pub fn is_wide(&self) -> bool {
        self.column >= WIDE
    }

    /// The middles of the stretches that are left out.
    pub fn breaks(&self) -> Vec<u32> {
        let later = self.runs.iter().skip(1);
        later.map(|run| self.x(*run.start()) - BREAK / 2).collect()
    }

    /// Offsets to be numbered: this one, and others as they have room.
    pub fn numbered(&self, asked: u8) -> Vec<u8> {
        let steps = [1, 2, 4, 8, 16, 32];
        let step = steps
            .into_iter()
            .find(|&step| u32::from(step) * self.column >= APART);
        let far = |offset: u8| self.x(offset).abs_diff(self.x(asked)) >= APART;
        self.runs
            .iter()
            .flat_map(|run| run.clone())
            .filter(|&offset| offset == asked || offset % step.unwrap_or(64) == 0 && far(offset))
            .collect()
    }
}

/// A record as it is drawn.
#[derive(Clone, Debug, PartialEq, Eq)]
pub struct Drawn {
    /// S, the first offset covered.
    pub start: u8,
    /// S + L, the last.
    pub end: u8,
    /// The kind.
    pub kind: Kind,
    /// I.
    pub intercept: i32,
    /// The members that are known, ascending.
    pub members: Vec<u8>,
    /// Whether these are all.
    pub complete: bool,
}

impl From<&listing::Record> for Drawn {
    fn from(record: &listing::Record) -> Drawn {
        Drawn {
            start: record.start,
            end: record.end(),
            kind: record.kind,
            intercept: record.intercept,
            members: record.shown_members(),
            complete: !matches!(record.kind, Kind::Approximate { .. }),
        }
    }
}

impl From<&record::Record> for Drawn {
    /// Of a record that is sound.
    fn from(record: &record::Record) -> Drawn {
        Drawn {
            start: record.start,
            end: record.start + record.span,
            kind: record.kind().expect("a sound record has a kind"),
            intercept: record.intercept,
            members: record.members().into_iter().collect(),
            complete: true,
        }
    }
}

impl Drawn {
    /// The record in words.
    pub fn in_words(&self) -> String {
        let (start, end) = (self.start, self.end);
        match self.kind {
            Kind::Single => format!("single {start}"),
            Kind::Accurate { stride } => format!("accurate {start} to {end}, stride {stride}"),
            Kind::Approximate { slope } => {
                format!("approximate {start} to {end}, slope {slope}/256")
            }
        }
    }

    /// The offsets that are covered and known to be no members.
    pub fn free(&self) -> Vec<u8> {
        let free = |offset: &u8| self.complete && !self.members.contains(offset);
        (self.start..=self.end).filter(free).collect()
    }
}

/// The sizes of rows.
#[derive(Clone, Copy, Debug)]
pub struct Rows {
    /// A row's height.
    pub height: u32,
    /// Of it, room above its cells.
    pub above: u32,
    /// The height of a cell.
    pub cell: u32,
    /// From a row's middle down to the baseline of its name.
    pub baseline: u32,
    /// The least width of a member's cell, as far as its neighbours leave room.
    pub least: u32,
}

impl Rows {
    /// The upper edge of the cells of a row that starts here.
    pub fn cells(&self, y: u32) -> u32 {
        y + self.above + (self.height - self.above - self.cell) / 2
    }

    /// The middle of the cells of a row that starts here.
    pub fn middle(&self, y: u32) -> u32 {
        self.cells(y) + self.cell / 2
    }

    /// How many rows these levels take: a group without records has one, which says so.
    pub fn count(levels: &[Vec<Drawn>]) -> u32 {
        levels.len().max(1) as u32
    }

    /// Draws levels, each with its name, from this y on.
    pub fn draw(&self, paper: &mut Paper, axis: &Axis, top: u32, levels: &[Vec<Drawn>]) {
        for level in 0..Rows::count(levels) {
            let y = top + level * self.height;
            let name = match levels.is_empty() {
                true => "no record".to_string(),
                false => format!("level {level}"),
            };
            paper.text(16, self.middle(y) + self.baseline, "", &name);
            let records = levels.get(level as usize);
            self.row(paper, axis, y, level, records.map_or(&[], Vec::as_slice));
        }
    }

    /// A level: its line, then its records, each with a title that says it in words.
    fn row(&self, paper: &mut Paper, axis: &Axis, y: u32, level: u32, records: &[Drawn]) {
        let (left, middle, end) = (axis.left(), self.middle(y), axis.end());
        paper.path("row", format_args!("M{left} {middle}H{end}"));
        for record in records {
            let words = format!(
                "level {level}: {}, intercept {}",
                record.in_words(),
                record.intercept
            );
            paper.group(&words, |paper| {
                self.record(paper, axis, self.cells(y), record)
            });
        }
    }

    /// A record whose cells start at this height, as far as its offsets are shown.
    pub fn record(&self, paper: &mut Paper, axis: &Axis, y: u32, record: &Drawn) {
        let Some((from, to)) = axis.extent(record.start..=record.end) else {
            return;
        };
        let class = match record.kind {
            Kind::Single => "accurate",
            Kind::Accurate { .. } => {
                let middle = y + self.cell / 2;
                paper.path("range", format_args!("M{from} {middle}H{to}"));
                "accurate"
            }
            Kind::Approximate { .. } => {
                paper.rect("bar", [from, y, to - from, self.cell]);
                "approximate"
            }
        };
        let free = record.free();
        if axis.is_wide() && !free.is_empty() {
            let cells = self.cell_path(axis, y, &free, axis.cell());
            paper.path(&format!("{class} free"), cells);
        }
        let apart = record
            .members
            .windows(2)
            .map(|pair| pair[1] - pair[0])
            .min();
        let room = u32::from(apart.unwrap_or(255)) * axis.column() - 1;
        let width = axis.cell().max(room.min(self.least));
        paper.path(class, self.cell_path(axis, y, &record.members, width));
    }

    /// The path of the cells of these offsets, as far as they are shown.
    fn cell_path(&self, axis: &Axis, y: u32, offsets: &[u8], width: u32) -> String {
        let height = self.cell;
        let aside = (width - axis.cell()) / 2;
        let shown = offsets.iter().filter(|&&offset| axis.shows(offset));
        let cell = |&offset: &u8| {
            let x = axis.x(offset) - aside;
            format!("M{x} {y}h{width}v{height}h-{width}z")
        };
        shown.map(cell).collect()
    }
}

#[cfg(test)]
mod tests {
    use super::*;

    const ROWS: Rows = Rows {
        height: 24,
        above: 0,
        cell: 14,
        baseline: 4,
        least: 0,
    };

    /// What a record of all offsets' axis is drawn as.
    fn drawn(start: u8, span: u8, kind: Kind, y: u32) -> String {
        let record = listing::Record {
            start,
            span,
            kind,
            intercept: -7,
        };
        let mut paper = Paper::default();
        ROWS.record(&mut paper, &Axis::whole(72, 4), y, &Drawn::from(&record));
        paper.elements().to_string()
    }

    #[test]
    fn one_cell_for_each_member() {
        let out = drawn(10, 6, Kind::Accurate { stride: 3 }, 100);
        let cells = "M112 100h3v14h-3zM124 100h3v14h-3zM136 100h3v14h-3z";
        assert!(out.contains(&format!("<path class=\"accurate\" d=\"{cells}\"/>")));
        assert!(out.contains("<path class=\"range\" d=\"M112 107H139\"/>"));
        assert!(!out.contains("free"));
    }

    #[test]
    fn a_single_is_one_cell_without_a_range() {
        let out = drawn(255, 0, Kind::Single, 0);
        assert_eq!(out, "<path class=\"accurate\" d=\"M1092 0h3v14h-3z\"/>\n");
    }

    #[test]
    fn an_approximate_record_is_a_bar_with_solid_ends() {
        let out = drawn(0, 5, Kind::Approximate { slope: 1 }, 0);
        assert_eq!(
            out,
            "<rect class=\"bar\" x=\"72\" y=\"0\" width=\"23\" height=\"14\"/>\n\
             <path class=\"approximate\" d=\"M72 0h3v14h-3zM92 0h3v14h-3z\"/>\n"
        );
    }

    /// With wide columns, what is covered and not held is an empty cell, and what is owned
    /// is known.
    #[test]
    fn empty_cells() {
        let owner = record::Record::approximate(1, 0, [4, 6, 7].into());
        let axis = Axis::fitting(100, &[4..=7]);
        let mut paper = Paper::default();
        ROWS.record(&mut paper, &axis, 0, &Drawn::from(&owner));
        assert_eq!(
            paper.elements(),
            "<rect class=\"bar\" x=\"152\" y=\"0\" width=\"195\" height=\"14\"/>\n\
             <path class=\"approximate free\" d=\"M204 0h39v14h-39z\"/>\n\
             <path class=\"approximate\" d=\"M152 0h39v14h-39zM256 0h39v14h-39zM308 0h39v14h-39z\"/>\n"
        );
    }

    /// A thin cell is made wider where its neighbours leave room, and what isn't shown is
    /// not drawn.
    #[test]
    fn thin_cells_and_offsets_left_out() {
        let rows = Rows { least: 9, ..ROWS };
        let thin = record::Record::exact(0, 64, Kind::Accurate { stride: 32 }, 0);
        let mut paper = Paper::default();
        rows.record(&mut paper, &Axis::whole(72, 4), 0, &Drawn::from(&thin));
        let cells = "M69 0h9v14h-9zM197 0h9v14h-9zM325 0h9v14h-9z";
        assert!(paper.elements().ends_with(&format!("d=\"{cells}\"/>\n")));
        let dense = record::Record::exact(0, 2, Kind::Accurate { stride: 1 }, 0);
        let mut paper = Paper::default();
        rows.record(&mut paper, &Axis::whole(72, 4), 0, &Drawn::from(&dense));
        assert!(paper.elements().contains("d=\"M72 0h3v14h-3zM76 0h3"));
        let mut paper = Paper::default();
        rows.record(
            &mut paper,
            &Axis::fitting(72, &[30..=40]),
            0,
            &Drawn::from(&thin),
        );
        assert!(paper.elements().contains("class=\"range\" d=\"M72 7H735\""));
        assert_eq!(paper.elements().matches('z').count(), 13);
        rows.record(
            &mut paper,
            &Axis::fitting(72, &[90..=99]),
            0,
            &Drawn::from(&thin),
        );
        assert_eq!(paper.elements().matches('z').count(), 13);
    }

    #[test]
    fn an_axis_zooms_to_what_is_used() {
        let axis = Axis::fitting(100, &[3..=9, 12..=12, 250..=255]);
        assert_eq!(axis.runs, [2..=13, 249..=255]);
        assert_eq!((axis.column, axis.cell()), (38, 29));
        assert_eq!([axis.x(2), axis.x(13), axis.x(249)], [100, 518, 612]);
        assert_eq!((axis.breaks(), axis.end()), (vec![584], 878));
        assert_eq!(axis.extent(9..=251), Some((366, 717)));
        assert_eq!(axis.extent(20..=240), None);
        let whole = Axis::fitting(72, &[1..=254]);
        assert_eq!(
            (whole.runs.as_slice(), whole.column),
            ([0..=255].as_slice(), 3)
        );
        assert!(axis.is_wide() && !whole.is_wide());
        assert_eq!(Axis::fitting(7, &[]).end(), 7);
    }

    #[test]
    fn an_axis_keeps_to_the_centre_where_all_would_be_narrow() {
        let few = Axis::zoomed(0, &[0..=9, 70..=80], &[70..=80]);
        assert_eq!(few.runs, [0..=10, 69..=81]);
        let many = Axis::zoomed(0, &[0..=200], &[70..=80]);
        assert_eq!(many.runs, [69..=81]);
        let wide_centre = Axis::zoomed(0, &[0..=200], &[10..=190]);
        assert_eq!(wide_centre.runs, [0..=201]);
        // A break would take more room than the offsets.
        let scattered: Vec<Offsets> = (0..=255).step_by(15).map(|one| one..=one).collect();
        let scattered = Axis::zoomed(0, &scattered, &[0..=200]);
        assert_eq!((scattered.runs.len(), scattered.column), (1, 3));
    }

    #[test]
    fn numbers_have_room() {
        let axis = Axis::fitting(0, &[10..=20]);
        assert_eq!(axis.numbered(15), (9..=21).collect::<Vec<u8>>());
        let wide = Axis::fitting(0, &[0..=255]);
        assert_eq!(wide.numbered(40)[..5], [0, 16, 40, 64, 80]);
    }
}
