//! A load read from a file.

use std::path::Path;
use std::process::Command;

use super::Step;

/// A trace. Its lines are `D M B N`, the device that it was taken on; `W FIRST
/// COUNT` and `R FIRST COUNT`, logical pages written or read; `F`, a sync. A line
/// that is one number is a logical page written; an empty one, or one that begins
/// with `#`, is nothing.
#[derive(Clone, Debug, Default, PartialEq, Eq)]
pub struct Trace {
    /// The file's name, without its folder and endings.
    pub name: String,
    /// M, B and N, where it says them.
    pub device: Option<[u32; 3]>,
    lines: Vec<Line>,
}

#[derive(Clone, Copy, Debug, PartialEq, Eq)]
enum Line {
    Write { first: u32, count: u32 },
    Read { first: u32, count: u32 },
    Sync,
}

impl Trace {
    /// Reads a file, through `xz` where its name ends so.
    pub fn open(path: &Path) -> Result<Trace, String> {
        let failed = |error: &dyn std::fmt::Display| format!("{}: {error}", path.display());
        let text = match path.extension().is_some_and(|ending| ending == "xz") {
            false => std::fs::read_to_string(path).map_err(|error| failed(&error))?,
            true => {
                let ended = Command::new("xz").arg("-dc").arg(path).output();
                let ended = ended.map_err(|error| failed(&format!("xz: {error}")))?;
                if !ended.status.success() {
                    return Err(failed(&String::from_utf8_lossy(&ended.stderr)));
                }
                String::from_utf8(ended.stdout).map_err(|error| failed(&error))?
            }
        };
        let name = path.file_name().unwrap_or_default().to_string_lossy();
        let name = name.split('.').next().unwrap_or_default();
        Trace::parse(name, &text).map_err(|error| failed(&error))
    }

    /// Reads a trace's text.
    pub fn parse(name: &str, text: &str) -> Result<Trace, String> {
        let mut trace = Trace {
            name: name.to_string(),
            ..Trace::default()
        };
        for (number, text) in (1..).zip(text.lines()) {
            let bad = || format!("line {number} is no line of a trace: {text}");
            let mut words = text.split_whitespace();
            let Some(head) = words.next().filter(|head| !head.starts_with('#')) else {
                continue;
            };
            let numbers: Result<Vec<u32>, _> = words.map(str::parse).collect();
            let numbers = numbers.map_err(|_| bad())?;
            match (head, &numbers[..]) {
                ("D", &[blocks, block_pages, pages]) => {
                    trace.device = Some([blocks, block_pages, pages]);
                }
                ("W", &[first, count]) => trace.lines.push(Line::Write { first, count }),
                ("R", &[first, count]) => trace.lines.push(Line::Read { first, count }),
                ("F", []) => trace.lines.push(Line::Sync),
                (page, []) => {
                    let first = page.parse().map_err(|_| bad())?;
                    trace.lines.push(Line::Write { first, count: 1 });
                }
                _ => return Err(bad()),
            }
        }
        Ok(trace)
    }

    /// How many pages it writes.
    pub fn writes(&self) -> u64 {
        let counts = self.lines.iter().map(|line| match *line {
            Line::Write { count, .. } => u64::from(count),
            _ => 0,
        });
        counts.sum()
    }

    /// One more than the last logical page that it writes or reads.
    pub fn pages(&self) -> u64 {
        let ends = self.lines.iter().map(|line| match *line {
            Line::Write { first, count } | Line::Read { first, count } => {
                u64::from(first) + u64::from(count)
            }
            Line::Sync => 0,
        });
        ends.max().unwrap_or(0)
    }

    /// Its steps.
    pub fn steps(&self) -> impl Iterator<Item = Step> + '_ {
        self.lines.iter().flat_map(|line| {
            let (first, count, step): (u32, u32, fn(u32) -> Step) = match *line {
                Line::Write { first, count } => (first, count, Step::Write),
                Line::Read { first, count } => (first, count, Step::Read),
                Line::Sync => (0, 1, |_| Step::Sync),
            };
            (first..).take(count as usize).map(step)
        })
    }
}

#[cfg(test)]
mod tests {
    use super::*;

    #[test]
    fn all_kinds_of_lines() {
        let trace = Trace::parse("a", "D 9 64 256\n# a comment\nW 5 2\n\nF\nR 6 1\n17\n");
        let trace = trace.expect("a trace");
        assert_eq!(trace.device, Some([9, 64, 256]));
        assert_eq!((trace.writes(), trace.pages()), (3, 18));
        let steps = [
            Step::Write(5),
            Step::Write(6),
            Step::Sync,
            Step::Read(6),
            Step::Write(17),
        ];
        assert_eq!(Vec::from_iter(trace.steps()), steps);
    }

    #[test]
    fn other_lines_are_named() {
        for text in ["W 5", "x", "W 5 -1", "F 1", "1 2", "D 1 2"] {
            let error = Trace::parse("a", &format!("F\n{text}\n")).expect_err("no trace");
            assert_eq!(error, format!("line 2 is no line of a trace: {text}"));
        }
    }
}
