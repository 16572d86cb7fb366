//! docs/PERFORMANCE.md shows the second reads that the files in docs/second-reads
//! say, and the library makes those of the file `after.txt`.

use std::path::{Path, PathBuf};

use hedjosur_simulate::page::between;
use hedjosur_simulate::second_reads::{Asked, Comparison, Figures};

fn docs() -> PathBuf {
    Path::new(env!("CARGO_MANIFEST_DIR")).join("../../docs")
}

fn comparison() -> Comparison {
    Comparison::open(&docs().join("second-reads")).expect("the figures")
}

#[test]
fn the_page_shows_what_the_files_say() {
    let comparison = comparison();
    let page = std::fs::read_to_string(docs().join("PERFORMANCE.md")).expect("the page");
    let place = between(&page, "second reads").expect("the place on the page");
    assert_eq!(page[place], comparison.section());
    for asked in Asked::ALL {
        let file = docs().join("second-reads").join(asked.drawing());
        let drawn = std::fs::read_to_string(file).expect("the drawing");
        assert!(comparison.drawing(asked) == drawn, "{}", asked.drawing());
    }
}

/// The traces are replayed where the environment variable HEDJOSUR_TRACES names their
/// folder.
#[test]
fn the_library_reads_as_often_as_the_file_says() {
    let traces = std::env::var("HEDJOSUR_TRACES").ok();
    let Figures(counted) = Figures::count(traces.as_deref()).expect("accepted");
    let Figures(said) = comparison().after;
    assert!(counted.len() <= said.len());
    for (counted, said) in counted.iter().zip(&said) {
        assert_eq!(counted, said);
    }
    let (compared, left) = (counted.len(), said.len() - counted.len());
    println!("{compared} lines compared, {left} left out");
}
