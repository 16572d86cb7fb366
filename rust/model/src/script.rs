//! The listing program: it reads a script, a call on each line, and prints what
//! was refused and what was listed.

use crate::device::Device;
use crate::levels::Group;
use crate::ops::{self, Collected, Flushed, Lookup, Refusal};
use crate::spare::NOBODY;
use crate::state::Lent;

/// The head line of a listing.
pub const HEAD: &str = " LEVEL START  SPAN  WORD INTERCEPT";

/// What a line says that isn't a call.
pub const BAD_LINE: &str = "bad line";

/// 'Up to 64 decimal numbers.'
const LONGEST: usize = 64;

/// A line of a script, read.
#[derive(Clone, Debug, PartialEq, Eq)]
pub enum Line {
    /// 1: M, B, N, g.
    Format([u32; 4]),
    /// 2: the pages, possibly none.
    Flush(Vec<u32>),
    /// 3: a logical page.
    Lookup(u32),
    /// 4.
    Collection,
    /// 5: a group.
    Compaction(u32),
    /// 6: a group.
    List(u32),
}

/// Reads a line without its line end: 'an operation number in 2 columns, then up
/// to 64 decimal numbers, each right-justified in 8'. None is a bad line.
pub fn read_line(line: &[u8]) -> Option<Line> {
    let (operation, fields) = line.split_at_checked(2)?;
    let operation = read_number(operation)?;
    let numbers: Vec<u32> = fields.chunks(8).map(read_field).collect::<Option<_>>()?;
    match (operation, numbers.as_slice()) {
        (1, &[blocks, block_pages, logical_pages, bound]) => {
            Some(Line::Format([blocks, block_pages, logical_pages, bound]))
        }
        (2, pages) if pages.len() <= LONGEST => Some(Line::Flush(numbers)),
        (3, &[logical_page]) => Some(Line::Lookup(logical_page)),
        (4, &[]) => Some(Line::Collection),
        (5, &[group]) => Some(Line::Compaction(group)),
        (6, &[group]) => Some(Line::List(group)),
        _ => None,
    }
}

/// A number in a field of 8 columns; a shorter field is bad.
fn read_field(field: &[u8]) -> Option<u32> {
    (field.len() == 8).then_some(field).and_then(read_number)
}

/// A right-justified decimal number: blanks, then at least one digit.
fn read_number(field: &[u8]) -> Option<u32> {
    let digits = field.trim_ascii_start();
    let blanks = &field[..field.len() - digits.len()];
    let right = blanks.iter().all(|&byte| byte == b' ')
        && !digits.is_empty()
        && digits.iter().all(u8::is_ascii_digit);
    right.then(|| {
        digits
            .iter()
            .fold(0, |number, digit| 10 * number + u32::from(digit - b'0'))
    })
}

/// A record as a listing has it: level, S, L, word, I.
pub type Listed = (usize, u8, u8, u16, i32);

/// The records of a group: 'levels downward, each ascending'.
pub fn listed(group: &Group) -> Vec<Listed> {
    let levels = group.levels.iter().enumerate();
    let records = levels.flat_map(|(level, records)| records.iter().map(move |r| (level, r)));
    records
        .map(|(level, r)| (level, r.start, r.span, r.word, r.intercept))
        .collect()
}

/// The lines of a listing: 'the head line, then' a line for each record,
/// 'right-justified in widths 6, 6, 6, 6 and 10'.
pub fn listing(records: &[Listed]) -> Vec<String> {
    let mut lines = vec![HEAD.to_string()];
    lines.extend(records.iter().map(|(level, start, span, word, intercept)| {
        format!("{level:>6}{start:>6}{span:>6}{word:>6}{intercept:>10}")
    }));
    lines
}

/// What a call answers, with what it wrote into the lists lent to it.
#[derive(Clone, Debug, PartialEq, Eq)]
pub enum Answer {
    /// It is refused.
    Refused(Refusal),
    /// The device is formatted.
    Formatted,
    /// A flush's answer, and the front of its plan.
    Flushed(Flushed, Vec<u32>),
    /// A lookup's answer.
    Lookup(Lookup),
    /// A collection's answer, and the front of its plan and of its erased list.
    Collected(Collected, [Vec<u32>; 2]),
    /// How many records a compaction leaves.
    Compacted(usize),
    /// The records of a group.
    Listed(Vec<Listed>),
}

/// The listing program between two lines: 'the state is an empty slice until a
/// format is accepted'.
#[derive(Clone, Debug)]
pub struct Program {
    lent: Lent,
    area: Vec<u32>,
}

impl Default for Program {
    fn default() -> Program {
        Program {
            lent: Lent::Short,
            area: Vec::new(),
        }
    }
}

impl Program {
    /// What the program prints for one line: 'accepted calls but 6 print
    /// nothing', 'a refusal prints "refused" and its number'. 'It takes devices
    /// with N up to 1,024 and 8,192 spare entries, else "refused 1".'
    pub fn print(&mut self, line: &[u8]) -> Vec<String> {
        let Some(line) = read_line(line) else {
            return vec![BAD_LINE.to_string()];
        };
        let answer = match line {
            Line::Format(numbers) if !takes(numbers) => Answer::Refused(Refusal::BadNumbers),
            line => self.call(&line),
        };
        match answer {
            Answer::Refused(refusal) => vec![format!("refused {}", refusal.number())],
            Answer::Listed(records) => listing(&records),
            _ => Vec::new(),
        }
    }

    /// Makes one call, lending it lists of the right lengths.
    pub fn call(&mut self, line: &Line) -> Answer {
        self.answer(line).unwrap_or_else(Answer::Refused)
    }

    fn answer(&mut self, line: &Line) -> Result<Answer, Refusal> {
        let (lent, area) = (&mut self.lent, &mut self.area);
        let [blocks, block_pages] = match lent.open() {
            Ok((device, _)) => [device.blocks, device.block_pages],
            Err(_) => [0, 0],
        };
        let mut plan = vec![NOBODY; block_pages as usize];
        let mut erased = vec![NOBODY; blocks as usize];
        Ok(match line {
            Line::Format(numbers) => {
                self.format(*numbers)?;
                Answer::Formatted
            }
            Line::Flush(batch) => {
                let flushed = ops::flush(lent, area, batch, &mut plan)?;
                plan.truncate(flushed.count as usize);
                Answer::Flushed(flushed, plan)
            }
            Line::Lookup(logical_page) => Answer::Lookup(ops::lookup(lent, area, *logical_page)?),
            Line::Collection => {
                let collected = ops::collection(lent, area, &mut plan, &mut erased)?;
                plan.truncate(collected.count as usize);
                erased.truncate(collected.erased as usize);
                Answer::Collected(collected, [plan, erased])
            }
            Line::Compaction(group) => Answer::Compacted(ops::compaction(lent, *group)?),
            Line::List(group) => Answer::Listed(listed(ops::list(lent, *group)?)),
        })
    }

    /// Formats new slices of the right lengths. A refused format leaves the state
    /// as it was.
    fn format(&mut self, numbers: [u32; 4]) -> Result<(), Refusal> {
        let device = Device::new(numbers).ok_or(Refusal::BadNumbers)?;
        let mut lent = Lent::fitting(&device);
        let mut area = vec![0; device.spare_length()];
        ops::format(&mut lent, &mut area, numbers)?;
        *self = Program { lent, area };
        Ok(())
    }
}

/// Whether the program takes a device of these numbers.
pub fn takes(numbers: [u32; 4]) -> bool {
    Device::new(numbers)
        .is_some_and(|device| device.logical_pages <= 1024 && device.spare_length() <= 8192)
}

/// What the program prints for a whole script; the last line may lack its
/// newline.
pub fn run(script: &[u8]) -> String {
    let mut program = Program::default();
    script
        .split_inclusive(|&byte| byte == b'\n')
        .flat_map(|line| program.print(line.strip_suffix(b"\n").unwrap_or(line)))
        .map(|line| line + "\n")
        .collect()
}
