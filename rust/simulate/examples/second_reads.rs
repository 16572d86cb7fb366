//! Shows how often lookups read twice, before and after a change of the rule by which
//! runs are learned, from the repository's root: `cargo run --release --manifest-path
//! rust/Cargo.toml -p hedjosur-simulate --example second_reads -- after`.
//!
//! With `before` or `after` it first replays the loads through the library that is
//! linked and writes that file of docs/second-reads; the traces are replayed where the
//! environment variable HEDJOSUR_TRACES names their folder, and left out otherwise. Then
//! it writes the tables of the two files into docs/PERFORMANCE.md, and their drawings
//! beside them.

#![forbid(unsafe_code)]

use std::path::Path;

use hedjosur_simulate::page::between;
use hedjosur_simulate::second_reads::{Asked, Comparison, Figures};

fn main() -> Result<(), Box<dyn std::error::Error>> {
    let folder = Path::new("docs/second-reads");
    match std::env::args().nth(1).as_deref() {
        Some(build @ ("before" | "after")) => {
            let traces = std::env::var("HEDJOSUR_TRACES").ok();
            let figures = Figures::count(traces.as_deref())?;
            std::fs::write(folder.join(build).with_extension("txt"), figures.text())?;
        }
        Some(other) => return Err(format!("before or after, not {other}").into()),
        None => (),
    }
    let comparison = Comparison::open(folder)?;
    for asked in Asked::ALL {
        std::fs::write(folder.join(asked.drawing()), comparison.drawing(asked))?;
    }
    let file = "docs/PERFORMANCE.md";
    let mut page = std::fs::read_to_string(file)?;
    let place = between(&page, "second reads").ok_or("the page has no place for them")?;
    page.replace_range(place, &comparison.section());
    std::fs::write(file, page)?;
    print!("{}", comparison.section());
    Ok(())
}
