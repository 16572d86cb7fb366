//! The picture program: listings on standard input, an SVG on standard output.

#![forbid(unsafe_code)]

use std::io::{self, Read, Write};
use std::process::ExitCode;

use hedjosur_picture::{listing, svg};

fn main() -> ExitCode {
    match picture() {
        Ok(()) => ExitCode::SUCCESS,
        Err(message) => {
            eprintln!("picture: {message}");
            ExitCode::FAILURE
        }
    }
}

fn picture() -> Result<(), String> {
    if std::env::args_os().len() > 1 {
        return Err("it reads a listing on standard input and takes no argument".into());
    }
    let mut text = Vec::new();
    io::stdin()
        .read_to_end(&mut text)
        .map_err(|error| error.to_string())?;
    let text = String::from_utf8(text).map_err(|_| "the input is not text".to_string())?;
    let groups = listing::read(&text).map_err(|error| error.to_string())?;
    io::stdout()
        .write_all(svg::listings::draw(&groups).as_bytes())
        .map_err(|error| error.to_string())
}
