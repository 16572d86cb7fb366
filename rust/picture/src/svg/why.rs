//! The picture of why: the levels of the group with the path of the lookup down the
//! column of the offset asked for, and below them the pages around the predicted one with
//! its spare entries.

use std::ops::RangeInclusive;

use hedjosur_model::ops::{Reason, WhyEntry};
use hedjosur_model::record::{Kind, Record};
use hedjosur_model::spare::existing;

use super::levels::{Axis, Drawn, Offsets, Rows};
use super::pages::{self, Strip};
use super::paper::Paper;
use super::slide::{self, HEADING, LEFT, LINE, MARGIN};
use crate::why::{range, Outcome, SpareEntry, Why};

const ROWS: Rows = Rows {
    height: 88,
    above: 32,
    cell: 32,
    baseline: 7,
    least: 9,
};
/// From the top to the scale's baseline, and to the first row.
const SCALE: u32 = 92;
const LEVELS: u32 = 104;
/// How many offsets beside the one asked for are shown in any case.
const NEAR: u8 = 4;
/// From the columns to the reasons.
const ASIDE: u32 = 40;
/// About the width of a character: of a label, of a reason, of the heading and the
/// answer.
const LABEL: u32 = 10;
const REASON: u32 = 12;
const LARGE: u32 = 15;

const STYLE: &str = "\
.free{fill:#fcfcf9;stroke-width:2}
.accurate.free{stroke:#0f5a9e}
.approximate.free{stroke:#a8480c}
.asked{fill:#ffe08a}
.met{fill:none;stroke:#1c1c1a;stroke-width:3}
.path{fill:none;stroke:#1c1c1a;stroke-width:5}
.passed{fill:#fcfcf9;stroke:#1c1c1a;stroke-width:3}
.member{fill:#1c1c1a;stroke:#fcfcf9;stroke-width:3}
.veil{fill:#fcfcf9;opacity:.75}
.faint{fill:#5f5f5a}
.page,.entry{fill:#fcfcf9;stroke:#4a4a46}
.other{fill:#dededa;stroke:#8a8a84}
.absent{fill:none;stroke:#8a8a84;stroke-dasharray:4 4}
.predicted{fill:#fcfcf9;stroke:#1c1c1a;stroke-width:4}
.answered{fill:#ffe08a;stroke:#1c1c1a;stroke-width:4}
.decides{fill:#ffe08a;stroke:#1c1c1a;stroke-width:3}
.arrow{fill:none;stroke:#1c1c1a;stroke-width:4}
";

/// Draws why.
pub fn draw(why: &Why) -> String {
    let picture = Picture::new(why);
    let mut paper = Paper::default();
    paper.text(MARGIN, HEADING, "large", &why.question());
    let mut top = picture.levels(&mut paper);
    if let (Outcome::Read { predicted, page }, Some(strip)) = (why.outcome, picture.strip) {
        top = picture.pages(&mut paper, top, &strip, (predicted, page));
    }
    let answer = why.answer();
    paper.text(MARGIN, top + LINE, "large", &answer);
    let (bottom, legend) = slide::legend(&mut paper, top + 2 * LINE, picture.signs(), draw_sign);
    let reasons = why.levels.iter().flat_map(|level| picture.beside(level));
    let longest = reasons.map(|line| line.len()).max().unwrap_or(20) as u32;
    let wide = [
        picture.axis.end() + ASIDE + REASON * longest,
        picture.strip.map_or(0, |strip| strip.end()),
        MARGIN + LARGE * answer.len() as u32,
        legend,
    ];
    let right = wide.into_iter().max().unwrap_or(0);
    slide::framed(paper, &why.to_string(), (right, bottom), STYLE)
}

/// What is drawn, and where.
struct Picture<'a> {
    why: &'a Why<'a>,
    levels: Vec<Vec<Drawn>>,
    axis: Axis,
    strip: Option<Strip>,
}

impl<'a> Picture<'a> {
    fn new(why: &'a Why<'a>) -> Picture<'a> {
        let asked = why.offset();
        let mut used: Vec<Offsets> = why.group.records().map(covered).collect();
        used.push(asked..=asked);
        let met = why.levels.iter().filter_map(|told| told.record);
        let mut centre: Vec<Offsets> = met.map(covered).collect();
        centre.push(asked.saturating_sub(NEAR)..=asked.saturating_add(NEAR));
        let levels = why.group.levels.iter();
        Picture {
            why,
            levels: levels
                .map(|records| records.iter().map(Drawn::from).collect())
                .collect(),
            axis: Axis::zoomed(LEFT, &used, &centre),
            strip: match why.outcome {
                Outcome::Read { predicted, .. } => {
                    let shown = around(why, predicted);
                    Some(Strip::new(LEFT, *shown.start(), *shown.end()))
                }
                _ => None,
            },
        }
    }

    /// The upper edge of a level's row.
    fn row(&self, level: usize) -> u32 {
        LEVELS + level as u32 * ROWS.height
    }

    /// The x of the path.
    fn column(&self) -> u32 {
        self.axis.middle(self.why.offset())
    }

    /// The levels, with the path of the lookup; where they end.
    fn levels(&self, paper: &mut Paper) -> u32 {
        let (why, axis) = (self.why, &self.axis);
        let rows = self.row(Rows::count(&self.levels) as usize);
        let end = self.path_end();
        let bottom = rows.max(end.unwrap_or(0) + 8);
        let width = axis.cell().max(14);
        let (x, y) = (self.column() - width / 2, SCALE - 22);
        paper.rect("asked", [x, y, width, bottom - y]);
        self.scale(paper);
        ROWS.draw(paper, axis, LEVELS, &self.levels);
        for (level, records) in why.group.levels.iter().enumerate() {
            self.labels(paper, level, records);
        }
        let looked = why.levels.len();
        if looked < self.levels.len() {
            let y = self.row(looked);
            paper.rect("veil", [1, y, axis.end() + ASIDE, rows - y]);
            let y = ROWS.middle(y) + ROWS.baseline;
            paper.text(axis.end() + ASIDE, y, "faint", "not looked at");
        }
        if let Some(end) = end {
            self.path(paper, end);
        }
        bottom
    }

    /// The offsets' numbers.
    fn scale(&self, paper: &mut Paper) {
        let (axis, asked) = (&self.axis, self.why.offset());
        paper.text(MARGIN, SCALE, "scale", "offset");
        for offset in axis.numbered(asked) {
            let class = match offset == asked {
                true => "scale middle bold",
                false => "scale middle",
            };
            paper.text(axis.middle(offset), SCALE, class, &offset.to_string());
        }
        let (before, behind) = self.left_out();
        let ends = [(before, LEFT - 14), (behind, axis.end() + 22)];
        let ends = ends.into_iter().filter_map(|(more, x)| more.then_some(x));
        for x in axis.breaks().into_iter().chain(ends) {
            paper.text(x, SCALE, "scale middle", "…");
        }
    }

    /// Whether records cover offsets before the first one shown, and behind the last.
    fn left_out(&self) -> (bool, bool) {
        let (first, last) = self.axis.ends();
        let records = || self.levels.iter().flatten();
        let before = records().any(|record| record.start < first);
        (before, records().any(|record| record.end > last))
    }

    /// The labels of a level's records: that of the record met, and others as they have
    /// room beside it and beside the path.
    fn labels(&self, paper: &mut Paper, level: usize, records: &[Record]) {
        let y = self.row(level) + ROWS.above - 2;
        let met = self.why.levels.get(level).and_then(|told| told.record);
        let (first, others): (Vec<&Record>, Vec<&Record>) =
            records.iter().partition(|record| met == Some(*record));
        let mut taken = Vec::new();
        if level < self.why.levels.len() {
            taken.push(self.column() - 6..=self.column() + 6);
        }
        for record in first.into_iter().chain(others) {
            let is_met = met == Some(record);
            let Some((start, _)) = self.axis.extent(covered(record)) else {
                continue;
            };
            let long = range(record);
            let short = long.split(", ").next().unwrap_or_default();
            let aside = is_met.then(|| self.column() + 14);
            let places = [Some(start), aside].into_iter().flatten();
            let place = [long.as_str(), short]
                .into_iter()
                .flat_map(|words| places.clone().map(move |x| (words, x)))
                .map(|(words, x)| (words, x..=x + (words.len() as u32 + 1) * LABEL))
                .find(|(_, room)| !taken.iter().any(|other| overlap(room, other)));
            let Some((words, room)) = place else {
                continue;
            };
            let class = match is_met {
                true => "label bold",
                false => "label",
            };
            paper.text(*room.start(), y, class, words);
            taken.push(room);
        }
    }

    /// Where the path ends: at the member, or below the last level; none where no level is
    /// looked at.
    fn path_end(&self) -> Option<u32> {
        let last = self.why.levels.last()?;
        Some(match last.reason {
            Reason::Member => ROWS.middle(self.row(last.level)),
            _ => self.row(last.level + 1) + 14,
        })
    }

    /// The path down the column of the offset, the records met and the reasons.
    fn path(&self, paper: &mut Paper, end: u32) {
        for told in &self.why.levels {
            self.met(paper, told);
        }
        let x = self.column();
        let found = matches!(self.why.levels.last(), Some(last) if last.reason == Reason::Member);
        let stop = match found {
            true => String::new(),
            false => format!("M{} {end}h32", x - 16),
        };
        paper.path("path", format_args!("M{x} {}V{end}{stop}", SCALE + 6));
        for told in &self.why.levels {
            self.node(paper, told);
        }
    }

    /// The box of the record that a level has for the offset.
    fn met(&self, paper: &mut Paper, told: &WhyEntry) {
        let extent = |record| self.axis.extent(covered(record));
        if let Some((from, to)) = told.record.and_then(extent) {
            let y = ROWS.cells(self.row(told.level)) - 5;
            paper.rect("met", [from - 5, y, to - from + 10, ROWS.cell + 10]);
        }
    }

    /// Where the path meets a level, with the reason beside it.
    fn node(&self, paper: &mut Paper, told: &WhyEntry) {
        let y = ROWS.middle(self.row(told.level));
        let class = match told.reason {
            Reason::Member => "member",
            _ => "passed",
        };
        paper.circle(class, [self.column(), y, 9]);
        let aside = self.axis.end() + ASIDE;
        let lines = self.beside(told);
        let first = y + ROWS.baseline - 12 * (lines.len() as u32 - 1);
        for (number, (line, class)) in (0..).zip(lines.iter().zip(["bold", ""])) {
            paper.text(aside, first + 25 * number, class, line);
        }
    }

    /// What stands beside a level: its reason, in one line or two.
    fn beside(&self, told: &WhyEntry) -> Vec<String> {
        let words = self.why.reason(told);
        match words.split_once(", ") {
            Some((first, second)) => vec![format!("{first},"), second.to_string()],
            None => vec![words],
        }
    }

    /// The pages around the predicted one and its entries; where they end.
    fn pages(
        &self,
        paper: &mut Paper,
        top: u32,
        strip: &Strip,
        (predicted, page): (u32, Option<u32>),
    ) -> u32 {
        let why = self.why;
        let words = format!("page {predicted} is predicted: its spare entries are read");
        let top = top + 8;
        paper.text(MARGIN, top + LINE, "bold", &words);
        let tags = top + 2 * LINE;
        let here = i64::from(predicted);
        paper.text(strip.middle(here), tags, "middle", "predicted");
        if let Some(page) = page {
            paper.text(strip.middle(page.into()), tags + 24, "middle", "answered");
        }
        let y = tags + 34;
        let numbers = around(why, predicted).map(|one| match existing(&why.device, one) {
            None => (one, strip.named(None, "none"), "absent"),
            Some(number) => {
                let class = match number {
                    _ if page == Some(number) => "answered",
                    _ if number == predicted => "predicted",
                    _ if self.same_block(number, predicted) => "page",
                    _ => "other",
                };
                (one, number.to_string(), class)
            }
        });
        strip.row(paper, y, "page", numbers);
        let held = around(why, predicted).filter_map(|one| {
            let held = why.held_by(existing(&why.device, one)?);
            Some((one, strip.named(held, "nothing"), "page"))
        });
        strip.row(paper, y + pages::CELL, "holds", held);
        self.entries(paper, y + 2 * pages::CELL + LINE, strip, here)
    }

    /// The entries of the page that is predicted, each below the page that it is about;
    /// where they end.
    fn entries(&self, paper: &mut Paper, y: u32, strip: &Strip, predicted: i64) -> u32 {
        let why = self.why;
        let read = why.entries_read();
        let first = predicted - i64::from(why.device.bound);
        let about = |entry: &SpareEntry| first + i64::from(entry.number);
        if let Some(entry) = read.iter().find(|entry| why.decides(entry)) {
            let x = strip.middle(about(entry));
            let (from, to) = (y, y - LINE + 4);
            let head = format!("M{} {}L{x} {to}l8 10", x - 8, to + 10);
            paper.path("arrow", format_args!("M{x} {from}V{to}{head}"));
        }
        let row = |words: &dyn Fn(&SpareEntry) -> String| {
            let cell = |entry: &SpareEntry| match why.decides(entry) {
                true => (about(entry), words(entry), "decides"),
                false => (about(entry), words(entry), "entry"),
            };
            read.iter().map(cell).collect::<Vec<_>>()
        };
        strip.row(paper, y, "entry", row(&|entry| entry.number.to_string()));
        let names = row(&|entry| strip.named(entry.names, "nobody"));
        strip.row(paper, y + pages::CELL, "names", names);
        y + 2 * pages::CELL + 8
    }

    fn same_block(&self, page: u32, other: u32) -> bool {
        let block_pages = self.why.device.block_pages;
        page / block_pages == other / block_pages
    }

    /// Whether a page of another block than the predicted page's is shown.
    fn shows_other_block(&self) -> bool {
        let Outcome::Read { predicted, .. } = self.why.outcome else {
            return false;
        };
        around(self.why, predicted)
            .filter_map(|page| existing(&self.why.device, page))
            .any(|page| !self.same_block(page, predicted))
    }

    /// The signs: whether each occurs, and what it means.
    fn signs(&self) -> [(bool, Sign, &'static str); 9] {
        let wide = self.axis.is_wide();
        let shown = |one: &&Drawn| self.axis.extent(one.start..=one.end).is_some();
        let records: Vec<&Drawn> = self.levels.iter().flatten().filter(shown).collect();
        let is_approximate = |one: &Drawn| matches!(one.kind, Kind::Approximate { .. });
        let any = |approximate: bool, free: bool| {
            let wanted = |one: &&Drawn| {
                is_approximate(one) == approximate && (!free || !one.free().is_empty())
            };
            records.iter().any(wanted)
        };
        let (before, behind) = self.left_out();
        [
            (
                any(false, false),
                Sign::Cell("accurate"),
                "member of an accurate record, or a single",
            ),
            (
                any(true, false),
                Sign::Cell("approximate"),
                "member of an approximate record: it owns the offset",
            ),
            (
                wide && (any(false, true) || any(true, true)),
                Sign::Cell("page"),
                "covered and no member",
            ),
            (
                !wide && any(false, true),
                Sign::Line("range"),
                "covered by an accurate record and no member",
            ),
            (
                !wide && any(true, true),
                Sign::Cell("bar"),
                "covered by an approximate record and no member",
            ),
            (
                !self.why.levels.is_empty(),
                Sign::Path,
                "the lookup's way down; a box: the record that covers the offset",
            ),
            (
                !self.axis.breaks().is_empty() || before || behind,
                Sign::Text("…"),
                "offsets left out",
            ),
            (
                self.strip.is_some_and(|strip| !strip.is_wide()),
                Sign::Text("–"),
                "nobody, nothing",
            ),
            (
                self.shows_other_block(),
                Sign::Cell("other"),
                "a page of another block",
            ),
        ]
    }
}

/// A sign of the legend.
enum Sign {
    Cell(&'static str),
    Line(&'static str),
    Path,
    Text(&'static str),
}

/// Draws a sign in the legend's line that starts at this y.
fn draw_sign(paper: &mut Paper, y: u32, sign: Sign) {
    match sign {
        Sign::Cell(class) => paper.rect(class, [60, y + 4, 24, 22]),
        Sign::Line(class) => paper.path(class, format_args!("M56 {}h32", y + 15)),
        Sign::Path => paper.path("path", format_args!("M72 {}v24", y + 3)),
        Sign::Text(text) => paper.text(72, y + 22, "middle", text),
    }
}

/// The offsets that a record of a sound group covers.
fn covered(record: &Record) -> Offsets {
    record.start..=record.start + record.span
}

/// Whether two ranges have a place in common.
fn overlap(one: &RangeInclusive<u32>, other: &RangeInclusive<u32>) -> bool {
    one.start() <= other.end() && other.start() <= one.end()
}

/// The pages shown: those that the predicted page's entries are about, and one more on
/// either side that exists.
fn around(why: &Why, predicted: u32) -> RangeInclusive<i64> {
    let (here, bound) = (i64::from(predicted), i64::from(why.device.bound));
    let [first, last] = [here - bound, here + bound];
    let before = i64::from(existing(&why.device, first - 1).is_some());
    let behind = i64::from(existing(&why.device, last + 1).is_some());
    first - before..=last + behind
}

#[cfg(test)]
mod tests {
    use hedjosur_model::testing::{small_device, Random, World};

    use super::super::testing::{between, count, tags_match};
    use super::*;

    fn picture(world: &World, logical_page: u32) -> String {
        let why = Why::ask(&world.lent, &world.area, logical_page);
        draw(&why.expect("an accepted call"))
    }

    /// The guide's owners: 0, 1, 4, 5 and then 1, 2, 4.
    fn owners() -> World {
        World::flushed([9, 64, 256, 1], &[&[0, 1, 4, 5], &[1, 2, 4]])
    }

    #[test]
    fn a_page_that_is_found() {
        let drawn = picture(&owners(), 5);
        assert_eq!(
            between(&drawn, "<title id=\"title\">", "</title>"),
            "why 5: offset 5 of group 0"
        );
        assert_eq!(
            between(&drawn, "<desc id=\"desc\">", "</desc>"),
            "level 0: no record covers 5; \
             level 1: record 0..5, approximate: 5 is a member, page 3 is predicted; \
             entry 0 of page 3 (for page 2) names 4; \
             entry 1 of page 3 (for page 3) names 5: it decides; \
             entry 2 of page 3 (for page 4) names nobody; \
             page 3, one read"
        );
        for (class, elements) in [
            ("row", 2),
            ("bar", 2),
            // The lookup's way, and its sign in the legend.
            ("path", 2),
            ("passed", 1),
            ("member", 1),
            ("met", 1),
            ("veil", 0),
            ("answered", 1),
            ("predicted", 0),
            // The number of the entry that decides, and what it names.
            ("decides", 2),
            ("entry", 4),
            ("arrow", 1),
        ] {
            assert_eq!(count(&drawn, class), elements, "{class}");
        }
        for words in [
            "1..4, approximate",
            "0..5, approximate",
            "page 3 is predicted",
        ] {
            assert!(drawn.contains(&format!(">{words}</text>")), "{words}");
        }
        tags_match(&drawn);
    }

    /// Both records cover 3 and neither has it: two boxes, and no page.
    #[test]
    fn a_page_that_is_covered_and_not_written() {
        let drawn = picture(&owners(), 3);
        for (class, elements) in [("met", 2), ("passed", 2), ("member", 0), ("arrow", 0)] {
            assert_eq!(count(&drawn, class), elements, "{class}");
        }
        assert!(drawn.contains(">not written, 2 levels looked at</text>"));
        assert!(!drawn.contains(">names</text>"));
        tags_match(&drawn);
    }

    /// What lies below the member is veiled.
    #[test]
    fn levels_below_the_member() {
        let drawn = picture(&owners(), 4);
        assert_eq!((count(&drawn, "veil"), count(&drawn, "passed")), (1, 0));
        assert!(drawn.contains(">not looked at</text>"));
    }

    #[test]
    fn a_second_read() {
        let world = World::flushed([9, 64, 256, 1], &[&[0, 1, 2, 6]]);
        let drawn = picture(&world, 2);
        assert_eq!(
            (count(&drawn, "answered"), count(&drawn, "predicted")),
            (1, 1)
        );
        assert!(drawn.contains(">predicted</text>") && drawn.contains(">answered</text>"));
        assert!(drawn.contains("two reads: page 1 was predicted, its entry 2 names 2</text>"));
    }

    #[test]
    fn pages_without_a_level() {
        let mut world = owners();
        world.discard(5).expect("an accepted discard");
        let drawn = picture(&world, 5);
        assert_eq!((count(&drawn, "path"), count(&drawn, "veil")), (0, 1));
        assert!(drawn.contains(">discarded: no level is looked at</text>"));
        let drawn = picture(&World::flushed([9, 64, 256, 1], &[]), 5);
        assert!(drawn.contains(">no record</text>"));
        assert_eq!(count(&drawn, "path"), 0);
        tags_match(&drawn);
    }

    #[test]
    fn refusal_7() {
        let mut world = owners();
        world.area.fill(255);
        let drawn = picture(&world, 5);
        assert!(drawn.contains(">refused 7: no entry of page 3 names 5</text>"));
        assert_eq!((count(&drawn, "decides"), count(&drawn, "arrow")), (0, 0));
        assert_eq!(
            (count(&drawn, "answered"), count(&drawn, "predicted")),
            (0, 1)
        );
    }

    /// The legend has what occurs.
    #[test]
    fn the_legend() {
        let single = picture(&World::flushed([9, 64, 256, 0], &[&[7]]), 7);
        assert!(single.contains(">member of an accurate record, or a single</text>"));
        for words in [
            "approximate record",
            "covered and",
            "left out",
            "nobody",
            "another block",
        ] {
            assert!(!single.contains(words), "{words}");
        }
        let owners = picture(&owners(), 2);
        assert!(owners.contains(">covered and no member</text>"));
        assert!(owners.contains(">a page of another block</text>"));
        assert!(!owners.contains("accurate record, or"));
        let narrow = picture(&World::flushed([9, 64, 256, 0], &[&[0, 200]]), 9);
        assert!(narrow.contains(">covered by an accurate record and no member</text>"));
    }

    /// Around the records that cover the offset, where the whole group would be too wide.
    #[test]
    fn a_wide_group() {
        let all: Vec<u32> = (0..64).collect();
        let world = World::flushed([9, 64, 256, 1], &[&all, &[200, 210], &[75, 78, 82]]);
        let drawn = picture(&world, 78);
        assert!(drawn.contains(">75..82, approximate</text>"));
        assert!(drawn.contains(">offsets left out</text>"));
        assert!(!drawn.contains(">0..63, stride 1</text>"));
    }

    /// Random devices, every logical page: one way down, a row for each level, a sign
    /// where each level is met, and at most one entry that decides.
    #[test]
    fn random_devices() {
        let mut random = Random::new(21);
        for _ in 0..100 {
            let device = small_device(&mut random);
            let world = World::lived_in(&mut random, &device);
            for logical_page in 0..device.logical_pages {
                let why = Why::ask(&world.lent, &world.area, logical_page);
                let why = why.expect("an accepted call");
                let drawn = draw(&why);
                tags_match(&drawn);
                let levels = why.group.levels.len().max(1);
                assert_eq!(count(&drawn, "row"), levels);
                let looked = why.levels.len();
                assert_eq!(count(&drawn, "passed") + count(&drawn, "member"), looked);
                assert_eq!(count(&drawn, "path"), 2 * looked.min(1));
                let met = why.levels.iter().filter(|told| told.record.is_some());
                assert_eq!(count(&drawn, "met"), met.count());
                let read = usize::from(matches!(why.outcome, Outcome::Read { .. }));
                assert_eq!(count(&drawn, "member"), read);
                assert_eq!(count(&drawn, "arrow"), read);
                assert_eq!(count(&drawn, "decides"), 2 * read);
            }
        }
    }
}
