//! The picture of listings: for each its levels as rows and offsets 0 to 255 as columns.
//!
//! Of an approximate record only the ends are cells: S and S + L are its first and last
//! members, and a listing doesn't say which offsets between them it owns.

use std::fmt::Write;

use hedjosur_model::record::Kind;

use super::levels::{Axis, Drawn, Rows};
use super::paper::{Frame, Paper};
use crate::listing::{Group, Record};
use crate::words::counted;

/// A column's width.
const COLUMN: u32 = 4;
/// Left of the columns: the levels' names. Right of them: a margin.
const LEFT: u32 = 72;
const RIGHT: u32 = 24;
const WIDTH: u32 = LEFT + 256 * COLUMN + RIGHT;
const ROW: u32 = 24;
const ROWS: Rows = Rows {
    height: ROW,
    above: 0,
    cell: 14,
    baseline: 4,
    least: 0,
};
/// Above a listing's first row: its heading and the offsets' scale.
const HEADING: u32 = 24;
const SCALE: u32 = 20;
/// Between listings, and around the legend.
const GAP: u32 = 14;
const LEGEND: u32 = 3 * ROW;

/// Draws listings, one below the other.
pub fn draw(groups: &[Group]) -> String {
    let mut paper = Paper::default();
    let mut top = GAP;
    for (number, group) in (1..).zip(groups) {
        top = panel(&mut paper, top, &heading(number, groups), group) + GAP;
    }
    legend(&mut paper, top);
    paper.framed(&Frame {
        width: WIDTH,
        height: top + LEGEND,
        title: &title(groups),
        description: &description(groups),
        style: "",
    })
}

fn axis() -> Axis {
    Axis::whole(LEFT, COLUMN)
}

/// A listing from this y on; where it ends.
fn panel(paper: &mut Paper, top: u32, heading: &str, group: &Group) -> u32 {
    let levels: Vec<Vec<Drawn>> = group
        .levels
        .iter()
        .map(|records| records.iter().map(Drawn::from).collect())
        .collect();
    paper.text(16, top + 14, "", heading);
    let scale = top + HEADING;
    let bottom = scale + SCALE + Rows::count(&levels) * ROW;
    for offset in (0..=224).step_by(32).chain([255]) {
        let x = axis().x(offset);
        paper.text(x, scale + 12, "scale", &offset.to_string());
        paper.path("grid", format_args!("M{x} {}V{bottom}", scale + SCALE - 3));
    }
    ROWS.draw(paper, &axis(), scale + SCALE, &levels);
    bottom
}

fn legend(paper: &mut Paper, top: u32) {
    let sample = |start, span, kind| Record {
        start,
        span,
        kind,
        intercept: 0,
    };
    let entries = [
        (
            sample(0, 24, Kind::Accurate { stride: 4 }),
            "accurate: each cell is a member, the line its range; a single is one cell",
        ),
        (
            sample(0, 24, Kind::Approximate { slope: 0 }),
            "approximate: the ends are members, between them the offsets that it owns, which a listing doesn't show",
        ),
    ];
    for (number, (record, words)) in (0..).zip(&entries) {
        let y = top + number * ROW;
        ROWS.record(paper, &axis(), ROWS.cells(y), &Drawn::from(record));
        paper.text(axis().x(record.end()) + 20, y + 16, "", words);
    }
}

fn heading(number: usize, groups: &[Group]) -> String {
    match groups.len() {
        1 => "offsets 0 to 255".to_string(),
        count => format!("listing {number} of {count}, offsets 0 to 255"),
    }
}

fn title(groups: &[Group]) -> String {
    match groups {
        [group] => format!("A group of {}", size(group)),
        _ => format!("{} listings of a group", groups.len()),
    }
}

/// How many levels and records a group has, in words.
fn size(group: &Group) -> String {
    let levels = counted(group.levels.len(), "level");
    format!("{levels} and {}", counted(group.records(), "record"))
}

/// The whole picture in words, level by level.
fn description(groups: &[Group]) -> String {
    let mut words = String::new();
    for (number, group) in (1..).zip(groups) {
        if groups.len() > 1 {
            let _ = write!(words, "Listing {number}: {}. ", size(group));
        }
        if group.levels.is_empty() {
            words.push_str("No record. ");
        }
        for (level, records) in group.levels.iter().enumerate() {
            let records = records.iter().map(|record| Drawn::from(record).in_words());
            let records: Vec<String> = records.collect();
            let _ = write!(words, "Level {level}: {}. ", records.join("; "));
        }
    }
    words.truncate(words.trim_end().len());
    words
}

#[cfg(test)]
mod tests {
    use super::super::testing::{between, tags_match};
    use super::*;

    fn record(start: u8, span: u8, kind: Kind) -> Record {
        Record {
            start,
            span,
            kind,
            intercept: -7,
        }
    }

    fn group(levels: &[&[Record]]) -> Group {
        Group {
            levels: levels.iter().map(|level| level.to_vec()).collect(),
        }
    }

    #[test]
    fn title_and_description() {
        let group = group(&[
            &[record(3, 0, Kind::Single)],
            &[
                record(0, 5, Kind::Approximate { slope: 1 }),
                record(10, 6, Kind::Accurate { stride: 3 }),
            ],
        ]);
        let one = draw(std::slice::from_ref(&group));
        assert_eq!(
            between(&one, "<title id=\"title\">", "</title>"),
            "A group of 2 levels and 3 records"
        );
        assert_eq!(
            between(&one, "<desc id=\"desc\">", "</desc>"),
            "Level 0: single 3. \
             Level 1: approximate 0 to 5, slope 1/256; accurate 10 to 16, stride 3."
        );
        let two = draw(&[Group::default(), group]);
        assert_eq!(
            between(&two, "<title id=\"title\">", "</title>"),
            "2 listings of a group"
        );
        assert!(between(&two, "<desc id=\"desc\">", "</desc>")
            .starts_with("Listing 1: 0 levels and 0 records. No record. Listing 2: 2 levels"));
    }

    #[test]
    fn every_record_has_its_words_and_every_level_its_row() {
        let group = group(&[
            &[record(3, 0, Kind::Single), record(9, 0, Kind::Single)],
            &[record(0, 20, Kind::Approximate { slope: 256 })],
        ]);
        let out = draw(&[group]);
        for words in [
            "<title>level 0: single 3, intercept -7</title>",
            "<title>level 0: single 9, intercept -7</title>",
            "<title>level 1: approximate 0 to 20, slope 256/256, intercept -7</title>",
        ] {
            assert!(out.contains(words), "{words}");
        }
        assert_eq!(out.matches("class=\"row\"").count(), 2);
        assert!(out.contains(">level 0</text>") && out.contains(">level 1</text>"));
    }

    #[test]
    fn a_group_without_records_says_so() {
        let out = draw(&[Group::default()]);
        assert!(out.contains(">no record</text>"));
        assert_eq!(
            between(&out, "<title id=\"title\">", "</title>"),
            "A group of 0 levels and 0 records"
        );
    }

    #[test]
    fn every_tag_is_closed() {
        let group = group(&[&[record(0, 5, Kind::Approximate { slope: 1 })]]);
        tags_match(&draw(&[group.clone(), group]));
    }
}
