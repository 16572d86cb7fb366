//! What pictures for a slide share: large text, a legend below, and words for all of it.

use super::paper::{Frame, Paper};

/// Left of what is drawn: the rows' names and the legend's signs.
pub const LEFT: u32 = 118;
/// A margin around all.
pub const MARGIN: u32 = 16;
/// From the top to the heading's baseline.
pub const HEADING: u32 = 40;
/// A line of text.
pub const LINE: u32 = 30;
/// About the width of a character of it.
pub const CHARACTER: u32 = 11;

/// Rules for text; a picture has more.
const STYLE: &str = "\
text{font-size:20px}
.scale{font-size:17px}
.middle{text-anchor:middle}
.large{font-size:24px;font-weight:bold}
.bold{font-weight:bold}
.label{font-size:17px}
.small{font-size:14px}
";

/// Draws a legend from this y on: the signs that occur, each with what it means. Where it
/// ends, down and to the right.
pub fn legend<S>(
    paper: &mut Paper,
    top: u32,
    signs: impl IntoIterator<Item = (bool, S, &'static str)>,
    mut draw: impl FnMut(&mut Paper, u32, S),
) -> (u32, u32) {
    let (mut y, mut right) = (top, LEFT);
    for (_, sign, words) in signs.into_iter().filter(|(occurs, ..)| *occurs) {
        draw(paper, y, sign);
        paper.text(LEFT, y + 22, "", words);
        y += LINE;
        right = right.max(LEFT + CHARACTER * words.len() as u32);
    }
    (y, right)
}

/// The whole picture of what is told in lines of words: the first line is its title, the
/// others say what it shows.
pub fn framed(paper: Paper, words: &str, (right, bottom): (u32, u32), style: &str) -> String {
    let (title, lines) = words.split_once('\n').expect("a first line");
    paper.framed(&Frame {
        width: right + MARGIN,
        height: bottom + MARGIN,
        title,
        description: &lines.trim_end().replace('\n', "; "),
        style: &format!("{STYLE}{style}"),
    })
}
