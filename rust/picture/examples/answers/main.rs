//! What the calls of a script answer where the listing program prints nothing: a
//! script on standard input, a line for each lookup and collection on standard
//! output. It runs the model.

#![forbid(unsafe_code)]

mod calls;

use std::io::{self, Read, Write};

fn main() -> io::Result<()> {
    let mut script = Vec::new();
    io::stdin().read_to_end(&mut script)?;
    io::stdout().write_all(calls::answers(&script).as_bytes())
}
