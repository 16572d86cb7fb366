//! The program `cuttings`: a script, and how its last flush can be cut into runs, in words
//! or as a picture.

#![forbid(unsafe_code)]

use std::process::ExitCode;

use hedjosur_picture::command::Program;

fn main() -> ExitCode {
    Program::Cuttings.run()
}
