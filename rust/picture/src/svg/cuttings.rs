//! The picture of cuttings: in each row the same batch, a cell for each page, with a box
//! around each run. From each end of a learned record a line goes down through all rows:
//! the record of the same number ends there or before it in every row.

use hedjosur_model::record::Kind;

use super::pages::{self, Strip};
use super::paper::Paper;
use super::slide::{self, CHARACTER, HEADING, LEFT, LINE, MARGIN};
use crate::cuttings::{Cuttings, Part};
use crate::words::{self, counted};

/// From the top to the baseline of the pages' numbers, to the middle of the lines' numbers,
/// and to the first row.
const SCALE: u32 = 84;
const NUMBERS: u32 = 112;
const ROWS: u32 = 132;
/// A row's height, and of it that of a box.
const ROW: u32 = 108;
const BOX: u32 = 92;
/// From a row's upper edge to its boxes, and from there to the middle of a record's
/// number, to the cells, and to the band below them.
const ABOVE: u32 = (ROW - BOX) / 2;
const NUMBER: u32 = 18;
const CELLS: u32 = 34;
const BAND: u32 = CELLS + pages::CELL + 5;
/// The height of a band, and how far it keeps from the sides of its box.
const BAND_HEIGHT: u32 = 8;
const BAND_ASIDE: u32 = 7;
/// The radius of a number's disc, and from its middle to its baseline.
const DISC: u32 = 13;
const BASELINE: u32 = 6;
/// From the columns to the number of records.
const ASIDE: u32 = 24;
/// About the width of a character: of a label, of the heading.
const LABEL: u32 = 8;
const LARGE: u32 = 15;

const STYLE: &str = "\
.label{paint-order:stroke;stroke:#fcfcf9;stroke-width:4}
.learned{fill:#ffe08a}
.box{fill:#fcfcf9;stroke-width:3}
.exact{stroke:#0f5a9e}
.rough{stroke:#a8480c}
.band{stroke-width:4}
.cell{fill:#ecece8;stroke:#8a8a84}
.end{fill:none;stroke:#1c1c1a;stroke-width:3;stroke-dasharray:8 5}
.edge{fill:none;stroke:#b9b9b1;stroke-width:9}
.disc{fill:#1c1c1a;stroke:#fcfcf9;stroke-width:2}
.number{font-size:17px;font-weight:bold;text-anchor:middle;fill:#fcfcf9}
";

/// Draws cuttings.
pub fn draw(cuttings: &Cuttings) -> String {
    let picture = Picture::new(cuttings);
    let mut paper = Paper::default();
    let heading = cuttings.heading();
    paper.text(MARGIN, HEADING, "large", &heading);
    picture.scale(&mut paper);
    picture.rows(&mut paper);
    let (top, text) = picture.text(&mut paper);
    let (bottom, legend) = slide::legend(&mut paper, top + LINE / 2, picture.signs(), draw_sign);
    let wide = [
        MARGIN + LARGE * heading.len() as u32,
        picture.right(),
        text,
        legend,
    ];
    let right = wide.into_iter().max().unwrap_or(0);
    slide::framed(paper, &cuttings.to_string(), (right, bottom), STYLE)
}

/// What is drawn, and where.
struct Picture<'a> {
    cuttings: &'a Cuttings<'a>,
    strip: Strip,
    rows: Vec<Row>,
}

/// A cutting as a row: its upper edge, its name, and its runs with their kinds.
struct Row {
    y: u32,
    name: &'static str,
    runs: Vec<(Part, Kind)>,
}

impl<'a> Picture<'a> {
    fn new(cuttings: &'a Cuttings<'a>) -> Picture<'a> {
        let pages = cuttings.flush().sorted.len() as i64;
        let first = i64::from(cuttings.flush().first);
        let learned = ("learned", cuttings.learned().to_vec());
        let others = cuttings.others().into_iter().map(|other| ("as few", other));
        let rows = (ROWS..)
            .step_by(ROW as usize)
            .zip([learned].into_iter().chain(others));
        let kind = |part: Part| (part.clone(), cuttings.kind(&part));
        Picture {
            cuttings,
            strip: Strip::new(LEFT, first, first + pages - 1).boxed(),
            rows: rows
                .map(|(y, (name, cutting))| Row {
                    y,
                    name,
                    runs: cutting.into_iter().map(kind).collect(),
                })
                .collect(),
        }
    }

    /// Where the rows end to the right.
    fn right(&self) -> u32 {
        self.strip.end() + ASIDE + CHARACTER * "64 records".len() as u32
    }

    /// Where they end below.
    fn bottom(&self) -> u32 {
        ROWS + self.rows.len() as u32 * ROW
    }

    /// The page of a place.
    fn page(&self, place: usize) -> i64 {
        i64::from(self.cuttings.flush().first) + place as i64
    }

    /// From the left edge to the right one of a run's box.
    fn box_around(&self, part: &Part) -> (u32, u32) {
        let pages = self.page(part.start)..self.page(part.end);
        self.strip.box_around(pages)
    }

    /// The pages' numbers.
    fn scale(&self, paper: &mut Paper) {
        paper.text(MARGIN, SCALE, "scale", "page");
        let class = match self.strip.is_wide() {
            true => "scale middle",
            false => "scale middle small",
        };
        for place in 0..self.cuttings.flush().sorted.len() {
            let page = self.page(place);
            paper.text(self.strip.middle(page), SCALE, class, &page.to_string());
        }
    }

    /// The rows, and through them the lines; the labels lie over these.
    fn rows(&self, paper: &mut Paper) {
        let width = self.right() - MARGIN / 2;
        paper.rect("learned", [MARGIN / 2, ROWS, width, ROW]);
        for row in &self.rows {
            self.row(paper, row);
        }
        self.lines(paper);
        for row in &self.rows {
            self.labels(paper, row);
        }
    }

    /// The boxes of a cutting, its cells, and how many records it has.
    fn row(&self, paper: &mut Paper, row: &Row) {
        let top = row.y + ABOVE;
        for (number, (part, kind)) in (1..).zip(&row.runs) {
            let (pages, kind_in_words) = (self.cuttings.pages(part), words::kind(*kind));
            let words = format!("{}, record {number}: {pages}, {kind_in_words}", row.name);
            let (from, to) = self.box_around(part);
            paper.group(&words, |paper| {
                boxed(paper, *kind, [from, top, to - from, BOX], top + BAND);
            });
        }
        let logical_pages = (0..).zip(&self.cuttings.flush().sorted);
        let cells = logical_pages.map(|(place, one)| (self.page(place), one.to_string(), "cell"));
        self.strip.row(paper, top + CELLS, row.name, cells);
        let records = counted(row.runs.len(), "record");
        let y = top + CELLS + pages::BASELINE;
        paper.text(self.strip.end() + ASIDE, y, "", &records);
    }

    /// The lines where groups end, and where learned records end with their numbers.
    fn lines(&self, paper: &mut Paper) {
        let bottom = self.bottom();
        for place in self.cuttings.edges() {
            let x = self.strip.x(self.page(place));
            paper.path("edge", format_args!("M{x} {ROWS}V{bottom}"));
        }
        paper.text(MARGIN, NUMBERS + BASELINE, "scale", "line");
        for (number, part) in (1..).zip(self.cuttings.learned()) {
            let x = self.strip.x(self.page(part.end));
            paper.path("end", format_args!("M{x} {NUMBERS}V{bottom}"));
            draw_number(paper, x, NUMBERS, number);
        }
    }

    /// The number of each run, and what it is, where there is room.
    fn labels(&self, paper: &mut Paper, row: &Row) {
        let y = row.y + ABOVE + NUMBER;
        for (number, (part, kind)) in (1..).zip(&row.runs) {
            let (from, to) = self.box_around(part);
            let (start, middle) = (from + 6, to - DISC - 2);
            draw_number(paper, middle, y, number);
            let words = words::kind(*kind);
            if start + LABEL * words.len() as u32 + DISC <= middle {
                paper.text(start, y + BASELINE, "label", &words);
            }
        }
    }

    /// What is told besides; where it ends, down and to the right.
    fn text(&self, paper: &mut Paper) -> (u32, u32) {
        let rest = self.cuttings.rest().map(|rest| format!("as few: {rest}"));
        let lines = [
            (rest, ""),
            (Some(self.cuttings.counts()), ""),
            (Some(self.cuttings.fewer()), "large"),
        ];
        let lines = lines
            .into_iter()
            .filter_map(|(line, class)| Some((line?, class)));
        let (mut y, mut right) = (self.bottom(), 0);
        for (line, class) in lines {
            y += LINE;
            paper.text(MARGIN, y, class, &line);
            right = right.max(MARGIN + CHARACTER * line.len() as u32);
        }
        (y, right)
    }

    /// The signs: whether each occurs, and what it means.
    fn signs(&self) -> [(bool, Sign, &'static str); 6] {
        let any = |wanted: fn(&Kind) -> bool| {
            let mut runs = self.rows.iter().flat_map(|row| &row.runs);
            runs.any(|(_, kind)| wanted(kind))
        };
        [
            (
                any(|kind| matches!(kind, Kind::Single)),
                Sign::Run(Kind::Single),
                "a run of one page, a single",
            ),
            (
                any(|kind| matches!(kind, Kind::Accurate { .. })),
                Sign::Run(Kind::Accurate { stride: 1 }),
                "an accurate run: one stride",
            ),
            (
                any(|kind| matches!(kind, Kind::Approximate { .. })),
                Sign::Run(Kind::Approximate { slope: 0 }),
                "an approximate run: each prediction within the bound",
            ),
            (
                true,
                Sign::Number,
                "a record's number in its row, at its end",
            ),
            (
                true,
                Sign::Line("end"),
                "line n: the learned record n ends here, and no cutting's record n ends farther right",
            ),
            (
                !self.cuttings.edges().is_empty(),
                Sign::Line("edge"),
                "a group ends here, and so does a run",
            ),
        ]
    }
}

/// A sign of the legend.
enum Sign {
    Run(Kind),
    Line(&'static str),
    Number,
}

/// Draws a sign in the legend's line that starts at this y.
fn draw_sign(paper: &mut Paper, y: u32, sign: Sign) {
    match sign {
        Sign::Run(kind) => boxed(paper, kind, [52, y + 3, 40, 24], y + 11),
        Sign::Line(class) => paper.path(class, format_args!("M72 {}v26", y + 2)),
        Sign::Number => draw_number(paper, 72, y + 15, 1),
    }
}

/// The number of a record, or of the line where one ends.
fn draw_number(paper: &mut Paper, x: u32, y: u32, number: usize) {
    paper.circle("disc", [x, y, DISC]);
    paper.text(x, y + BASELINE, "number", &number.to_string());
}

/// The box of a run, and in it from another y on a band by its kind: none for a single, a
/// line for an accurate run, a hatched one for an approximate run.
fn boxed(paper: &mut Paper, kind: Kind, [x, y, width, height]: [u32; 4], band: u32) {
    let class = match kind {
        Kind::Approximate { .. } => "box rough",
        _ => "box exact",
    };
    paper.rect(class, [x, y, width, height]);
    let [from, to] = [x + BAND_ASIDE, x + width - BAND_ASIDE];
    match kind {
        Kind::Single => {}
        Kind::Accurate { .. } => {
            let middle = band + BAND_HEIGHT / 2;
            paper.path("exact band", format_args!("M{from} {middle}H{to}"));
        }
        Kind::Approximate { .. } => paper.rect("bar", [from, band, to - from, BAND_HEIGHT]),
    }
}

#[cfg(test)]
mod tests {
    use hedjosur_model::testing::{full_device, sorted_batch, Random};

    use super::super::testing::{between, count, tags_match};
    use super::*;
    use crate::replay::Flush;

    fn picture(sorted: &[u32], bound: u32) -> String {
        let flush = Flush {
            line: 2,
            sorted: sorted.to_vec(),
            first: 64,
            bound,
        };
        draw(&Cuttings::of(&flush))
    }

    #[test]
    fn strides_and_singles() {
        let drawn = picture(&[0, 10, 11, 12, 13, 15, 17, 19], 0);
        assert_eq!(
            between(&drawn, "<title id=\"title\">", "</title>"),
            "last flush (line 2): 8 pages from page 64 on, bound 0"
        );
        let description = between(&drawn, "<desc id=\"desc\">", "</desc>");
        assert!(description.starts_with("learned: 0 10 | 11 12 13 | 15 17 19; as few:  0 | 10"));
        assert!(description.ends_with("; into fewer: none"));
        for (class, elements) in [
            ("learned", 1),
            // Four rows of three runs; the other numbers are those of the signs that occur.
            ("box", 12 + 2),
            ("band", 10 + 1),
            ("bar", 0),
            ("cell", 4 * 8),
            ("end", 3 + 1),
            ("edge", 0),
            ("disc", 3 + 12 + 1),
            ("number", 3 + 12 + 1),
            ("label", 12),
            ("small", 0),
        ] {
            assert_eq!(count(&drawn, class), elements, "{class}");
        }
        for words in ["stride 10", "single", "71", "3 records", "into fewer: none"] {
            assert!(drawn.contains(&format!(">{words}</text>")), "{words}");
        }
        assert!(drawn.contains("<title>as few, record 2: 10 11 12 13, stride 1</title>"));
        tags_match(&drawn);
    }

    #[test]
    fn approximate_runs() {
        let drawn = picture(&[0, 1, 4, 5, 6, 30, 31, 33, 36, 40, 41, 90], 1);
        assert!(drawn.contains("<title>learned, record 1: 0 1 4 5 6, approximate</title>"));
        assert!(drawn.contains(">approximate</text>"));
        assert!(drawn.contains(">as few: 11 more</text>"));
        let rough = count(&drawn, "rough");
        assert_eq!(count(&drawn, "bar"), rough);
        assert_eq!(
            rough + count(&drawn, "exact") - count(&drawn, "band"),
            count(&drawn, "box")
        );
        tags_match(&drawn);
    }

    #[test]
    fn several_groups() {
        let drawn = picture(&[255, 256, 512], 0);
        // The sign of the legend too.
        assert_eq!(count(&drawn, "edge"), 2 + 1);
        assert!(drawn.contains(">as few: no other</text>"));
        assert!(!drawn.contains("stride"));
    }

    /// Small numbers, and labels only where there is room.
    #[test]
    fn many_pages() {
        let singles: Vec<u32> = (0..32).map(|place| place * place / 2).collect();
        let drawn = picture(&singles, 0);
        assert!(count(&drawn, "small") > 0);
        assert!(count(&drawn, "label") < count(&drawn, "box"));
    }

    /// Random flushes: tags match, and each row has a cell for each page and a box and a
    /// number for each record.
    #[test]
    fn random_flushes() {
        let mut random = Random::new(22);
        for _ in 0..200 {
            let device = full_device(33, 64, random.below(5));
            let sorted = sorted_batch(&mut random, &device);
            let flush = Flush {
                line: 1,
                first: device.block_pages * random.below(device.blocks),
                bound: device.bound,
                sorted,
            };
            let cuttings = Cuttings::of(&flush);
            let drawn = draw(&cuttings);
            tags_match(&drawn);
            let (rows, records) = (cuttings.others().len() + 1, cuttings.learned().len());
            assert_eq!(count(&drawn, "cell"), rows * flush.sorted.len());
            assert_eq!(count(&drawn, "disc"), (rows + 1) * records + 1);
            assert_eq!(drawn.matches(", record ").count(), rows * records);
        }
    }
}
