//! A script's calls, made on the model: what they leave.

use std::error;
use std::fmt::{self, Display, Formatter};

use hedjosur_model::device::Device;
use hedjosur_model::learn::last_arrivals;
use hedjosur_model::ops::{self, Refusal};
use hedjosur_model::script::{read_line, takes, Line};
use hedjosur_model::testing::World;

use crate::words::counted;

/// What a script leaves.
#[derive(Clone, Debug)]
pub struct Replay {
    /// The state and its spare area.
    pub world: World,
    /// The calls that would have changed something and were refused: the number of the
    /// line, counted from 1, and why.
    pub refused: Vec<(usize, Refusal)>,
    /// The last flush that was accepted, whatever came after it.
    pub flush: Option<Flush>,
}

/// An accepted flush: what it put where.
#[derive(Clone, Debug, PartialEq, Eq)]
pub struct Flush {
    /// The number of its line, counted from 1.
    pub line: usize,
    /// Its logical pages, each once, ascending: they are put on consecutive pages.
    pub sorted: Vec<u32>,
    /// The first of these pages.
    pub first: u32,
    /// The bound that they are learned with.
    pub bound: u32,
}

/// Why a script leaves nothing to look at.
#[derive(Clone, Debug, PartialEq, Eq)]
pub enum Error {
    /// A line, counted from 1, is no call; here its text.
    BadLine(usize, String),
    /// It has fewer lines than were asked for: those that it has, and those asked for.
    TooShort(usize, usize),
    /// It has no format, or none that is accepted.
    NoFormat,
}

impl Display for Error {
    fn fmt(&self, out: &mut Formatter) -> fmt::Result {
        match self {
            Error::BadLine(number, text) => write!(
                out,
                "line {number} of the script is no call: \"{text}\" (an operation 1 to 6 in 2 columns, \
                 then its numbers, right-justified in 8 columns each)"
            ),
            Error::TooShort(lines, wanted) => {
                let lines = counted(*lines, "line");
                write!(out, "the script has {lines}, not {wanted}")
            }
            Error::NoFormat => write!(out, "the script has no format that is accepted"),
        }
    }
}

impl error::Error for Error {}

/// Makes the calls of a script, or of its first lines, in document 01's columns. It takes
/// the devices that the listing program takes.
pub fn replay(script: &[u8], lines: Option<usize>) -> Result<Replay, Error> {
    let script: Vec<&[u8]> = script
        .split_inclusive(|&byte| byte == b'\n')
        .map(|line| line.strip_suffix(b"\n").unwrap_or(line))
        .collect();
    let wanted = lines.unwrap_or(script.len());
    let script = script
        .get(..wanted)
        .ok_or(Error::TooShort(script.len(), wanted))?;
    let (mut world, mut refused, mut flush) = (None, Vec::new(), None);
    for (number, text) in (1..).zip(script) {
        let line = read_line(text).ok_or_else(|| bad_line(number, text))?;
        match call(&mut world, number, &line) {
            Ok(None) => {}
            Ok(flushed) => flush = flushed,
            Err(refusal) => refused.push((number, refusal)),
        }
    }
    let world = world.ok_or(Error::NoFormat)?;
    Ok(Replay {
        world,
        refused,
        flush,
    })
}

fn bad_line(number: usize, text: &[u8]) -> Error {
    let text = String::from_utf8_lossy(text);
    Error::BadLine(number, text.escape_debug().to_string())
}

/// Makes the call of a line, and answers it if it is a flush; lookups and listings change
/// nothing and are passed over.
fn call(world: &mut Option<World>, number: usize, line: &Line) -> Result<Option<Flush>, Refusal> {
    if let Line::Format(numbers) = line {
        let device = Device::new(*numbers).filter(|_| takes(*numbers));
        *world = Some(World::formatted(&device.ok_or(Refusal::BadNumbers)?));
        return Ok(None);
    }
    let world = world.as_mut().ok_or(Refusal::BadNumbers)?;
    match line {
        Line::Flush(batch) => {
            let flushed = world.flush(batch)?;
            return Ok(Some(Flush {
                line: number,
                sorted: last_arrivals(batch).into_keys().collect(),
                first: flushed.first,
                bound: world.device().bound,
            }));
        }
        Line::Collection => drop(world.collection()?),
        Line::Compaction(group) => drop(ops::compaction(&mut world.lent, *group)?),
        Line::Format(_) | Line::Lookup(_) | Line::List(_) => {}
    }
    Ok(None)
}

#[cfg(test)]
mod tests {
    use hedjosur_model::ops::Lookup;

    use super::*;

    const SCRIPT: &[u8] =
        b" 1       3       4       4       0\n 2       0\n 2       0\n 2       0\n 4\n 3       0";

    #[test]
    fn what_a_script_leaves() {
        let left = replay(SCRIPT, None).expect("a script");
        assert_eq!(left.refused, [(4, Refusal::NoFreeBlock)]);
        assert_eq!(left.world.lookup(0).map(|found| found.page()), Ok(Some(8)));
        let two = replay(SCRIPT, Some(2)).expect("a script");
        assert_eq!(two.refused, []);
        let found = Lookup::Found {
            page: 0,
            predicted: 0,
            levels: 1,
        };
        assert_eq!(two.world.lookup(0), Ok(found));
    }

    /// The last flush is the last accepted one, sorted, with every page once.
    #[test]
    fn the_last_flush() {
        let script = [SCRIPT, b"\n 2       3       1       3\n 2       4"].concat();
        let flush = |lines| replay(&script, Some(lines)).expect("a script").flush;
        let made = |line, sorted: &[u32], first| Flush {
            line,
            sorted: sorted.to_vec(),
            first,
            bound: 0,
        };
        assert_eq!(flush(1), None);
        assert_eq!(flush(2), Some(made(2, &[0], 0)));
        for lines in 3..=6 {
            assert_eq!(flush(lines), Some(made(3, &[0], 4)));
        }
        for lines in 7..=8 {
            assert_eq!(flush(lines), Some(made(7, &[1, 3], 0)));
        }
    }

    /// A refused format leaves the device as it was, and a compaction changes its group.
    #[test]
    fn formats_and_compactions() {
        let refused = [
            SCRIPT,
            b"\n 1       3       4       5       0\n 5       0\n 5       1",
        ]
        .concat();
        let left = replay(&refused, None).expect("a script");
        let refusals = [
            (4, Refusal::NoFreeBlock),
            (7, Refusal::BadNumbers),
            (9, Refusal::OutOfRange),
        ];
        assert_eq!(left.refused, refusals);
        assert_eq!(left.world, replay(SCRIPT, None).expect("a script").world);
    }

    #[test]
    fn scripts_that_leave_nothing() {
        let no_format = b" 2       0\n 3       0\n".as_slice();
        let too_large = b" 1      40      64    1025       0\n";
        for (script, lines, message) in [
            (no_format, None, "the script has no format that is accepted"),
            (b"", None, "the script has no format that is accepted"),
            (too_large, None, "the script has no format that is accepted"),
            (SCRIPT, Some(0), "the script has no format that is accepted"),
            (SCRIPT, Some(7), "the script has 6 lines, not 7"),
            (b" 4\n", Some(2), "the script has 1 line, not 2"),
            (
                b" 1       3       4       4       0\n\n",
                None,
                "line 2 of the script is no call: \"\" (an operation 1 to 6 in 2 columns, \
                 then its numbers, right-justified in 8 columns each)",
            ),
            (
                b" 4\r\n",
                None,
                "line 1 of the script is no call: \" 4\\r\" (an operation 1 to 6 in 2 columns, \
                 then its numbers, right-justified in 8 columns each)",
            ),
        ] {
            let error = replay(script, lines).expect_err(message);
            assert_eq!(error.to_string(), message);
        }
    }

    /// Lines behind the wanted ones may be anything.
    #[test]
    fn bad_lines_that_are_not_reached() {
        let script = [SCRIPT, b"\nbad line\n"].concat();
        assert!(replay(&script, Some(6)).is_ok());
        let Err(Error::BadLine(number, text)) = replay(&script, None) else {
            panic!("a bad line");
        };
        assert_eq!((number, text.as_str()), (7, "bad line"));
    }
}
