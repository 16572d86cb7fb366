//! The commands that the guide quotes, with what they print.

use std::ffi::OsString;
use std::path::{Path, PathBuf};

use hedjosur_picture::command::{Command, Program, Question};

use super::common::guide_files;

/// How a quoted command begins, before the name of its program.
pub const PROMPT: &str = "$ ./";

/// The guide's files of quotes: each has the name of its program as extension.
pub fn quotes() -> impl Iterator<Item = PathBuf> {
    let programs = Program::ALL.into_iter();
    programs.flat_map(|program| guide_files(program.name()))
}

/// A quote made anew.
#[derive(Default)]
pub struct Quote {
    /// Its commands, each with the words that it prints.
    pub text: String,
    /// The files that commands write, each with its picture.
    pub pictures: Vec<(PathBuf, String)>,
}

impl Quote {
    /// Runs the commands of a quote, in the repository's folder.
    pub fn anew(quote: &str, root: &Path) -> Quote {
        let mut anew = Quote::default();
        for line in quote.lines() {
            if let Some(command) = line.strip_prefix(PROMPT) {
                anew.add(line, command, root);
            }
        }
        anew
    }

    fn add(&mut self, line: &str, command: &str, root: &Path) {
        let (arguments, file) = match command.split_once(" > ") {
            Some((arguments, file)) => (arguments, Some(root.join(file))),
            None => (command, None),
        };
        let mut words = arguments.split(' ');
        let name = words.next();
        let program = Program::ALL
            .into_iter()
            .find(|one| name == Some(one.name()));
        let program = program.unwrap_or_else(|| panic!("{line}: there is no such program"));
        let Ok(Command::Tell(question)) = program.read(words.map(OsString::from)) else {
            panic!("{line}: it asks nothing");
        };
        let script = root.join(&question.script);
        let told = Question { script, ..question }.tell();
        let told = told.unwrap_or_else(|message| panic!("{line}: {message}"));
        if !self.text.is_empty() {
            self.text.push('\n');
        }
        self.text += &format!("{line}\n");
        match file {
            Some(file) => self.pictures.push((file, told.text)),
            None => self.text += &told.text,
        }
    }
}
