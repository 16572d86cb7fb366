//! The listing program: a script on standard input, its listing on standard
//! output.

#![forbid(unsafe_code)]

use std::io::{self, Read, Write};

use hedjosur_model::script;

fn main() -> io::Result<()> {
    let mut text = Vec::new();
    io::stdin().read_to_end(&mut text)?;
    io::stdout().write_all(script::run(&text).as_bytes())
}
