//! Pages as columns, with rows of cells below each other: what a page holds, what a spare
//! entry about it names.

use std::ops::Range;

use super::paper::Paper;

/// The height of a cell.
pub const CELL: u32 = 40;
/// From a cell's upper edge to the baseline of its words.
pub const BASELINE: u32 = 27;
/// The widest and the narrowest column, and the room for all of them.
const WIDEST: u32 = 96;
const NARROWEST: u32 = 38;
const ROOM: u32 = 1060;
/// Columns that are narrower have a dash for nobody, and small words.
const WIDE: u32 = 76;
/// What is left free on either side of a cell.
const ASIDE: u32 = 2;
/// The same where cells have boxes around them.
const BOXED_NARROWEST: u32 = 44;
const BOXED_WIDE: u32 = 60;
const BOXED_ASIDE: [u32; 2] = [10, 4];
/// What is left free on either side of a box; here and above: in wide columns, in narrow
/// ones.
const BOX_ASIDE: [u32; 2] = [4, 2];

/// Pages as columns, from this one on. A page outside the device has a column too.
#[derive(Clone, Copy, Debug, PartialEq, Eq)]
pub struct Strip {
    left: u32,
    column: u32,
    first: i64,
    last: i64,
    /// The least width of a wide column.
    wide: u32,
    /// What is left free on either side of a cell.
    aside: u32,
}

/// A cell: its page, its words and its class, which a picture's style sheet has to have
/// like those of the words: `middle`, in narrow columns `small` too.
pub type Cell = (i64, String, &'static str);

impl Strip {
    /// These pages from this x on, with columns as wide as there is room for.
    pub fn new(left: u32, first: i64, last: i64) -> Strip {
        let pages = (last - first + 1).max(1) as u32;
        Strip {
            left,
            column: (ROOM / pages).clamp(NARROWEST, WIDEST),
            first,
            last,
            wide: WIDE,
            aside: ASIDE,
        }
    }

    /// The same with boxes around cells, which have nothing but numbers.
    pub fn boxed(self) -> Strip {
        let column = self.column.max(BOXED_NARROWEST);
        Strip {
            column,
            wide: BOXED_WIDE,
            aside: BOXED_ASIDE[usize::from(column < BOXED_WIDE)],
            ..self
        }
    }

    /// The left edge of a page's column.
    pub fn x(&self, page: i64) -> u32 {
        self.left + (page - self.first) as u32 * self.column
    }

    /// The middle of a page's column.
    pub fn middle(&self, page: i64) -> u32 {
        self.x(page) + self.column / 2
    }

    /// The right edge of the last column.
    pub fn end(&self) -> u32 {
        self.x(self.last) + self.column
    }

    /// From the left edge to the right one of a box around the cells of these pages.
    pub fn box_around(&self, pages: Range<i64>) -> (u32, u32) {
        let aside = BOX_ASIDE[usize::from(!self.is_wide())];
        (self.x(pages.start) + aside, self.x(pages.end) - aside)
    }

    /// Whether columns are wide enough for words; else nobody and nothing are a dash.
    pub fn is_wide(&self) -> bool {
        self.column >= self.wide
    }

    /// A logical page, or these words for none, or a dash where columns are narrow.
    pub fn named(&self, logical_page: Option<u32>, none: &str) -> String {
        match logical_page {
            Some(logical_page) => logical_page.to_string(),
            None if self.is_wide() => none.to_string(),
            None => "–".to_string(),
        }
    }

    /// Draws a row of cells from this y on, with its name.
    pub fn row(
        &self,
        paper: &mut Paper,
        y: u32,
        name: &str,
        cells: impl IntoIterator<Item = Cell>,
    ) {
        let class = match self.is_wide() {
            true => "middle",
            false => "middle small",
        };
        paper.text(16, y + BASELINE, "", name);
        for (page, words, cell) in cells {
            let (x, width) = (self.x(page) + self.aside, self.column - 2 * self.aside);
            paper.rect(cell, [x, y + 2, width, CELL - 4]);
            paper.text(self.middle(page), y + BASELINE, class, &words);
        }
    }
}
