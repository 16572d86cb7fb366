//! Writes what the guide quotes of `./why` and `./cuttings` anew: runs the commands of each
//! docs/guide/NAME.why and NAME.cuttings, and writes that file and the pictures that they
//! make.

#![forbid(unsafe_code)]

mod commands;

#[path = "../../tests/common/mod.rs"]
mod common;

use std::{fs, io};

use commands::{quotes, Quote};
use common::{root, text};

fn main() -> io::Result<()> {
    for file in quotes() {
        let quote = Quote::anew(&text(&file), &root());
        fs::write(file, quote.text)?;
        for (picture, drawn) in quote.pictures {
            fs::write(picture, drawn)?;
        }
    }
    Ok(())
}
