//! The program `why`: a script and a logical page, and why a lookup of it ends where it
//! does, in words or as a picture.

#![forbid(unsafe_code)]

use std::process::ExitCode;

use hedjosur_picture::command::Program;

fn main() -> ExitCode {
    Program::Why.run()
}
