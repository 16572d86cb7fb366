//! The programs `why` and `cuttings`: their arguments, their messages and what they print.

use std::ffi::OsString;
use std::io::{self, Read, Write};
use std::path::PathBuf;
use std::process::ExitCode;
use std::{env, fs};

use hedjosur_model::ops::Refusal;

use crate::cuttings::Cuttings;
use crate::replay::{replay, Replay};
use crate::svg;
use crate::why::Why;

/// A program that makes a script's calls and tells something of what they leave.
#[derive(Clone, Copy, Debug, PartialEq, Eq)]
pub enum Program {
    /// Tells why a lookup ends where it does.
    Why,
    /// Tells how the last flush can be cut into runs.
    Cuttings,
}

const WHY_HELP: &str = "\
why SCRIPT PAGE [--lines K] [--picture]
Makes the calls of a script and tells why a lookup of the logical page PAGE then ends where it does:
for each level from the top the record that covers its offset and why it has it as a member or hasn't,
the spare entries read at the predicted page, and the answer.
";

const CUTTINGS_HELP: &str = "\
cuttings SCRIPT [--lines K] [--picture]
Makes the calls of a script and tells how its last accepted flush can be cut into runs, a record for
each: the cutting that is learned, others with as few records (a bar between runs, two between groups),
and how many cuttings there are into that many records, into more and into fewer.
";

const OPTIONS_HELP: &str = "
SCRIPT     a file of calls in document 01's columns, as ./list takes it; - reads standard input
--lines K  makes the calls of the first K lines only
--picture  prints an SVG instead of words
--help     prints this
";

/// What a program is asked to do.
#[derive(Clone, Debug, PartialEq, Eq)]
pub enum Command {
    /// To print its help.
    Help,
    /// To tell something.
    Tell(Question),
}

/// What is asked.
#[derive(Clone, Debug, PartialEq, Eq)]
pub struct Question {
    /// The script's file; `-` is standard input.
    pub script: PathBuf,
    /// What is to be told of what it leaves.
    pub topic: Topic,
    /// How many lines of the script are made; none is all.
    pub lines: Option<usize>,
    /// Whether a picture is wanted.
    pub picture: bool,
}

/// What a question is about.
#[derive(Clone, Copy, Debug, PartialEq, Eq)]
pub enum Topic {
    /// Why a lookup of this logical page ends where it does.
    Why(u32),
    /// How the last flush can be cut.
    Cuttings,
}

/// What a program prints, and what it notes beside it.
#[derive(Clone, Debug, PartialEq, Eq)]
pub struct Told {
    /// The words or the picture.
    pub text: String,
    /// A note for each call of the script that is refused.
    pub notes: Vec<String>,
}

impl Program {
    /// Every program.
    pub const ALL: [Program; 2] = [Program::Why, Program::Cuttings];

    /// Its name.
    pub fn name(self) -> &'static str {
        match self {
            Program::Why => "why",
            Program::Cuttings => "cuttings",
        }
    }

    /// What `--help` prints.
    pub fn help(self) -> String {
        let own = match self {
            Program::Why => WHY_HELP,
            Program::Cuttings => CUTTINGS_HELP,
        };
        own.to_string() + OPTIONS_HELP
    }

    /// Does what the process's arguments ask, or says what is wrong.
    pub fn run(self) -> ExitCode {
        match self.print() {
            Ok(()) => ExitCode::SUCCESS,
            Err(message) => {
                eprintln!("{}: {message}", self.name());
                ExitCode::from(2)
            }
        }
    }

    fn print(self) -> Result<(), String> {
        let text = match self.read(env::args_os().skip(1))? {
            Command::Help => self.help(),
            Command::Tell(question) => {
                let told = question.tell()?;
                for note in &told.notes {
                    eprintln!("{}: {note}", self.name());
                }
                told.text
            }
        };
        io::stdout()
            .write_all(text.as_bytes())
            .map_err(|error| error.to_string())
    }

    /// Reads the arguments behind the program's name, or says what is wrong with them.
    pub fn read(self, arguments: impl IntoIterator<Item = OsString>) -> Result<Command, String> {
        let mut arguments = arguments.into_iter();
        let (mut lines, mut picture, mut plain) = (None, false, Vec::new());
        while let Some(argument) = arguments.next() {
            match argument.to_str() {
                Some("--help") => return Ok(Command::Help),
                Some("--picture") => picture = true,
                Some("--lines") => {
                    let count = arguments.next().ok_or("--lines wants a number of lines")?;
                    lines = Some(number(&count, "a number of lines")?);
                }
                Some(option) if option.starts_with('-') && option != "-" => {
                    return Err(format!("there is no option {option}; --help says which"));
                }
                _ => plain.push(argument),
            }
        }
        let (script, topic) = self.topic(&plain)?;
        Ok(Command::Tell(Question {
            script,
            topic,
            lines,
            picture,
        }))
    }

    /// Reads the arguments that are no options: the script, and what is to be told.
    fn topic(self, plain: &[OsString]) -> Result<(PathBuf, Topic), String> {
        let (script, topic) = match (self, plain) {
            (Program::Why, [script, page]) => (script, Topic::Why(number(page, "a logical page")?)),
            (Program::Why, _) => {
                return Err("it wants a script and a logical page; --help says more".into());
            }
            (Program::Cuttings, [script]) => (script, Topic::Cuttings),
            (Program::Cuttings, _) => {
                return Err("it wants a script; --help says more".into());
            }
        };
        Ok((script.into(), topic))
    }
}

/// An argument as a number.
fn number<T: std::str::FromStr>(argument: &OsString, what: &str) -> Result<T, String> {
    let digits = argument
        .to_str()
        .filter(|text| text.bytes().all(|byte| byte.is_ascii_digit()));
    digits
        .and_then(|digits| digits.parse().ok())
        .ok_or_else(|| format!("{:?} is not {what}", argument.to_string_lossy()))
}

impl Question {
    /// Tells what is asked, or says what is wrong.
    pub fn tell(&self) -> Result<Told, String> {
        let script = self.read_script().map_err(|error| {
            let script = self.script.display();
            format!("can't read the script {script}: {error}")
        })?;
        let left = replay(&script, self.lines).map_err(|error| error.to_string())?;
        let text = match self.topic {
            Topic::Why(logical_page) => self.why(&left, logical_page)?,
            Topic::Cuttings => self.cuttings(&left)?,
        };
        let notes = left.refused.iter().map(|(line, refusal)| {
            let number = refusal.number();
            format!("line {line} of the script is refused {number} and changes nothing")
        });
        Ok(Told {
            text,
            notes: notes.collect(),
        })
    }

    fn read_script(&self) -> io::Result<Vec<u8>> {
        let mut script = Vec::new();
        match self.script.as_os_str() == "-" {
            true => io::stdin().read_to_end(&mut script).map(|_| script),
            false => fs::read(&self.script),
        }
    }

    fn why(&self, left: &Replay, logical_page: u32) -> Result<String, String> {
        let why = Why::ask(&left.world.lent, &left.world.area, logical_page);
        let logical_pages = left.world.device().logical_pages;
        let why = why.map_err(|refusal| refused(refusal, logical_page, logical_pages))?;
        Ok(match self.picture {
            true => svg::why::draw(&why),
            false => why.to_string(),
        })
    }

    fn cuttings(&self, left: &Replay) -> Result<String, String> {
        let flush = left.flush.as_ref();
        let cuttings = Cuttings::of(flush.ok_or("the script has no flush that is accepted")?);
        Ok(match self.picture {
            true => svg::cuttings::draw(&cuttings),
            false => cuttings.to_string(),
        })
    }
}

/// Why a lookup of a logical page is refused, on a device of so many.
fn refused(refusal: Refusal, logical_page: u32, logical_pages: u32) -> String {
    let number = refusal.number();
    match refusal {
        Refusal::OutOfRange => format!(
            "refused {number}: logical page {logical_page} is not below N, which is {logical_pages}"
        ),
        _ => format!("refused {number}"),
    }
}
