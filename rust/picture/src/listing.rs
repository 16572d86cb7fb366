//! Listings, read: for each the head line, then 'levels downward, each
//! ascending, right-justified in widths 6, 6, 6, 6 and 10'.

use std::error;
use std::fmt::{self, Display, Formatter};

use hedjosur_model::levels::GROUP_RECORDS;
use hedjosur_model::record::Kind;
use hedjosur_model::script::HEAD;

/// The columns' widths.
const WIDTHS: [usize; 5] = [6, 6, 6, 6, 10];

/// A record as a listing shows it. Which offsets an approximate one owns is not
/// shown there.
#[derive(Clone, Copy, Debug, PartialEq, Eq)]
pub struct Record {
    /// S, the first member.
    pub start: u8,
    /// L; S + L is the last member.
    pub span: u8,
    /// The kind that the word says.
    pub kind: Kind,
    /// I.
    pub intercept: i32,
}

impl Record {
    /// S + L.
    pub fn end(&self) -> u8 {
        self.start + self.span
    }

    /// The members that the listing shows: all of a single's or an accurate
    /// record's, the first and the last of an approximate one's.
    pub fn shown_members(&self) -> Vec<u8> {
        let step = match self.kind {
            Kind::Single => 1,
            Kind::Accurate { stride } => stride,
            Kind::Approximate { .. } => self.span.max(1),
        };
        (self.start..=self.end()).step_by(step.into()).collect()
    }
}

/// A group: its levels, 0 newest.
#[derive(Clone, Debug, Default, PartialEq, Eq)]
pub struct Group {
    /// The records of each level, ascending.
    pub levels: Vec<Vec<Record>>,
}

impl Group {
    /// How many records the group has.
    pub fn records(&self) -> usize {
        self.levels.iter().map(Vec::len).sum()
    }
}

/// Why a text is no listing.
#[derive(Clone, Debug, PartialEq, Eq)]
pub enum Error {
    /// There is no line at all.
    Empty,
    /// A line, counted from 1, and what is wrong with it.
    Line(usize, Fault),
}

/// What is wrong with a line.
#[derive(Clone, Debug, PartialEq, Eq)]
pub enum Fault {
    /// The first line is not the head line.
    NoHead,
    /// The line is not five numbers in their columns; here its text.
    NotARecord(String),
    /// The level neither stays nor goes up by one; here it and the one expected
    /// at most.
    Level(usize, usize),
    /// S + L is above 255.
    BeyondGroup(u32),
    /// No record has this word.
    Word(u32),
    /// A single with a span above 0.
    SingleSpan(u32),
    /// A span that is no multiple of the stride.
    Stride(u32, u8),
    /// The record doesn't start behind the one before, which ends here.
    Order(u8),
    /// More records than a group holds.
    TooMany,
}

impl Display for Error {
    fn fmt(&self, out: &mut Formatter) -> fmt::Result {
        match self {
            Error::Empty => write!(out, "there is no listing: the input is empty"),
            Error::Line(number, fault) => write!(out, "line {number}: {fault}"),
        }
    }
}

impl Display for Fault {
    fn fmt(&self, out: &mut Formatter) -> fmt::Result {
        match self {
            Fault::NoHead => write!(out, "a listing starts with the head line \"{HEAD}\""),
            Fault::NotARecord(text) => write!(
                out,
                "\"{}\" is not a record: five numbers, right-justified in widths 6, 6, 6, 6 and 10",
                text.escape_debug()
            ),
            Fault::Level(level, 0) => {
                write!(out, "level {level}, but the first record is at level 0")
            }
            Fault::Level(level, most) => write!(
                out,
                "level {level}, but after level {} comes that or level {most}",
                most - 1
            ),
            Fault::BeyondGroup(end) => {
                write!(out, "the record ends at {end}, and offsets at 255")
            }
            Fault::Word(word) => write!(out, "no record has the word {word}"),
            Fault::SingleSpan(span) => write!(out, "a single has span 0, not {span}"),
            Fault::Stride(span, stride) => {
                write!(out, "span {span} is no multiple of stride {stride}")
            }
            Fault::Order(end) => write!(
                out,
                "the record does not start behind the one before it in its level, which ends at {end}"
            ),
            Fault::TooMany => write!(out, "a group holds {GROUP_RECORDS} records, not more"),
        }
    }
}

impl error::Error for Error {}

/// Reads one listing or several, one after the other.
pub fn read(text: &str) -> Result<Vec<Group>, Error> {
    let mut groups: Vec<Group> = Vec::new();
    for (number, line) in (1..).zip(text.split_terminator('\n')) {
        if line == HEAD {
            groups.push(Group::default());
            continue;
        }
        let group = groups
            .last_mut()
            .ok_or(Error::Line(number, Fault::NoHead))?;
        add(group, line).map_err(|fault| Error::Line(number, fault))?;
    }
    match groups.is_empty() {
        true => Err(Error::Empty),
        false => Ok(groups),
    }
}

/// Adds the record of a line to a group.
fn add(group: &mut Group, line: &str) -> Result<(), Fault> {
    let (level, record) = read_record(line)?;
    let deepest = group.levels.len();
    if level > deepest || level + 1 < deepest {
        return Err(Fault::Level(level, deepest));
    }
    if group.records() == GROUP_RECORDS {
        return Err(Fault::TooMany);
    }
    if level == deepest {
        group.levels.push(Vec::new());
    }
    let records = &mut group.levels[level];
    match records.last() {
        Some(before) if record.start <= before.end() => return Err(Fault::Order(before.end())),
        _ => records.push(record),
    }
    Ok(())
}

/// A record's line: its level and the record.
fn read_record(line: &str) -> Result<(usize, Record), Fault> {
    let numbers = read_columns(line).ok_or_else(|| Fault::NotARecord(line.to_string()))?;
    let [level, start, span, word] = [0, 1, 2, 3].map(|column| u32::try_from(numbers[column]));
    let (Ok(level), Ok(start), Ok(span), Ok(word), Ok(intercept)) =
        (level, start, span, word, i32::try_from(numbers[4]))
    else {
        return Err(Fault::NotARecord(line.to_string()));
    };
    let kind = read_kind(word, span)?;
    let end = start + span;
    let (Ok(start), Ok(span), true) = (u8::try_from(start), u8::try_from(span), end <= 255) else {
        return Err(Fault::BeyondGroup(end));
    };
    let record = Record {
        start,
        span,
        kind,
        intercept,
    };
    Ok((level as usize, record))
}

/// The kind that a word says, if the span suits it.
fn read_kind(word: u32, span: u32) -> Result<Kind, Fault> {
    let kind = u16::try_from(word).ok().and_then(Kind::of);
    match kind.ok_or(Fault::Word(word))? {
        Kind::Single if span != 0 => Err(Fault::SingleSpan(span)),
        Kind::Accurate { stride } if !span.is_multiple_of(stride.into()) => {
            Err(Fault::Stride(span, stride))
        }
        kind => Ok(kind),
    }
}

/// The five numbers of a line, each printed as the listing program prints it.
fn read_columns(line: &str) -> Option<[i64; 5]> {
    let mut numbers = [0; 5];
    let mut rest = line;
    for (number, width) in numbers.iter_mut().zip(WIDTHS) {
        let (field, behind) = rest.split_at_checked(width)?;
        *number = field.trim_start_matches(' ').parse().ok()?;
        if *field != format!("{number:>width$}") {
            return None;
        }
        rest = behind;
    }
    rest.is_empty().then_some(numbers)
}

#[cfg(test)]
mod tests {
    use super::*;

    /// A listing of these lines.
    fn listing(lines: &[&str]) -> String {
        let lines = [HEAD].iter().chain(lines);
        lines.map(|line| format!("{line}\n")).collect()
    }

    /// The fault of a listing's only bad line, which is its last.
    fn fault(lines: &[&str]) -> Fault {
        match read(&listing(lines)) {
            Err(Error::Line(number, fault)) => {
                assert_eq!(number, lines.len() + 1);
                fault
            }
            other => panic!("{other:?}"),
        }
    }

    #[test]
    fn document_01s_listing() {
        let groups = read(&listing(&[
            "     0     0    15     2         0",
            "     0    16    15     2       112",
            "     0    32    58     2       288",
            "     0   200    55     2      -136",
        ]))
        .unwrap();
        let accurate = |start, span, intercept| Record {
            start,
            span,
            kind: Kind::Accurate { stride: 1 },
            intercept,
        };
        let level = vec![
            accurate(0, 15, 0),
            accurate(16, 15, 112),
            accurate(32, 58, 288),
            accurate(200, 55, -136),
        ];
        assert_eq!(
            groups,
            [Group {
                levels: vec![level]
            }]
        );
    }

    #[test]
    fn kinds_and_levels() {
        let groups = read(&listing(&[
            "     0   103     0     0        64",
            "     0   104    20   513        -1",
            "     1   100     6     4       -50",
            "     2     7     0   510         3",
        ]))
        .unwrap();
        let [group] = groups.as_slice() else {
            panic!("{groups:?}")
        };
        assert_eq!(group.records(), 4);
        let kinds: Vec<Vec<Kind>> = group
            .levels
            .iter()
            .map(|level| level.iter().map(|record| record.kind).collect())
            .collect();
        assert_eq!(
            kinds,
            [
                vec![Kind::Single, Kind::Approximate { slope: 256 }],
                vec![Kind::Accurate { stride: 2 }],
                vec![Kind::Accurate { stride: 255 }],
            ]
        );
    }

    #[test]
    fn shown_members() {
        let record = |span, kind| Record {
            start: 10,
            span,
            kind,
            intercept: 0,
        };
        let members = |span, kind| record(span, kind).shown_members();
        assert_eq!(members(0, Kind::Single), [10]);
        assert_eq!(members(6, Kind::Accurate { stride: 3 }), [10, 13, 16]);
        assert_eq!(members(0, Kind::Accurate { stride: 3 }), [10]);
        assert_eq!(members(6, Kind::Approximate { slope: 1 }), [10, 16]);
        assert_eq!(members(0, Kind::Approximate { slope: 1 }), [10]);
        assert_eq!(members(245, Kind::Accurate { stride: 245 }), [10, 255]);
    }

    #[test]
    fn several_listings_and_none_with_a_record() {
        let one = listing(&["     0     7     0     0         0"]);
        let groups = read(&(listing(&[]) + &one + &listing(&[]))).unwrap();
        let records: Vec<usize> = groups.iter().map(Group::records).collect();
        assert_eq!(records, [0, 1, 0]);
        assert_eq!(groups[0].levels, Vec::<Vec<Record>>::new());
        // The last line may lack its newline.
        assert_eq!(read(one.trim_end()), read(&one));
    }

    #[test]
    fn no_listing() {
        assert_eq!(read(""), Err(Error::Empty));
        assert_eq!(read("refused 6\n"), Err(Error::Line(1, Fault::NoHead)));
        assert_eq!(read("\n"), Err(Error::Line(1, Fault::NoHead)));
        let late = "     0     7     0     0         0\n".to_string() + &listing(&[]);
        assert_eq!(read(&late), Err(Error::Line(1, Fault::NoHead)));
    }

    #[test]
    fn lines_that_are_no_records() {
        let bad = [
            "",
            "refused 6",
            "bad line",
            "     0     7     0     0",
            "     0     7     0     0        0",
            "     0     7     0     0         0 ",
            "     0     7     0     0         0\r",
            "     0    07     0     0         0",
            "     0    +7     0     0         0",
            "     0    -7     0     0         0",
            "     0     7     0     0        -0",
            "     0     7     0     0       1.0",
            "    0      7     0     0         0",
            "     0     7     0     0          ",
            "     0     7     0     02147483648",
            "     0     7     0    é0         0",
        ];
        for line in bad {
            assert_eq!(fault(&[line]), Fault::NotARecord(line.to_string()));
        }
    }

    #[test]
    fn records_that_are_not_as_tabled() {
        let faults = [
            (
                "     0   200    56     2         0",
                Fault::BeyondGroup(256),
            ),
            (
                "     0   256     0     0         0",
                Fault::BeyondGroup(256),
            ),
            (
                "     0     0   300     3         0",
                Fault::BeyondGroup(300),
            ),
            ("     0     0     0   512         0", Fault::Word(512)),
            ("     0     0     0   515         0", Fault::Word(515)),
            ("     0     0     4     0         0", Fault::SingleSpan(4)),
            ("     0     0     5     4         0", Fault::Stride(5, 2)),
        ];
        for (line, expected) in faults {
            assert_eq!(fault(&[line]), expected);
        }
    }

    #[test]
    fn levels_and_their_order() {
        let first = "     0     5     5     2         0";
        let second = "     1     0    15     2         0";
        assert_eq!(fault(&[second]), Fault::Level(1, 0));
        let third = "     2     0     0     0         0";
        assert_eq!(fault(&[first, third]), Fault::Level(2, 1));
        let back = "     0    20     0     0         0";
        assert_eq!(fault(&[first, second, back]), Fault::Level(0, 2));
        let meeting = "     0    10     0     0         0";
        assert_eq!(fault(&[first, meeting]), Fault::Order(10));
        let before = "     0     0     4     2         0";
        assert_eq!(fault(&[first, before]), Fault::Order(10));
    }

    #[test]
    fn at_most_512_records() {
        let lines: Vec<String> = (0..513)
            .map(|number| {
                format!(
                    "{:>6}{:>6}     0     0         0",
                    number / 256,
                    number % 256
                )
            })
            .collect();
        let lines: Vec<&str> = lines.iter().map(String::as_str).collect();
        assert_eq!(fault(&lines), Fault::TooMany);
        let groups = read(&listing(&lines[..512])).unwrap();
        assert_eq!(groups[0].records(), 512);
    }

    #[test]
    fn messages() {
        let message = |text: &str| read(text).unwrap_err().to_string();
        assert_eq!(message(""), "there is no listing: the input is empty");
        assert_eq!(
            message("refused 6\n"),
            "line 1: a listing starts with the head line \" LEVEL START  SPAN  WORD INTERCEPT\""
        );
        assert_eq!(
            message(&listing(&["refused 6"])),
            "line 2: \"refused 6\" is not a record: \
             five numbers, right-justified in widths 6, 6, 6, 6 and 10"
        );
        assert_eq!(
            message(&listing(&["     1     0     0     0         0"])),
            "line 2: level 1, but the first record is at level 0"
        );
        assert_eq!(
            message(&listing(&[
                "     0     0     0     0         0",
                "     2     0     0     0         0"
            ])),
            "line 3: level 2, but after level 0 comes that or level 1"
        );
        assert_eq!(
            message(&listing(&["     0     0     5     4         0"])),
            "line 2: span 5 is no multiple of stride 2"
        );
    }
}
