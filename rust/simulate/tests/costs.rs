//! docs/COSTS.md shows what its commands print, and its drawings are what they
//! draw.

use std::path::Path;

use hedjosur_simulate::options::Options;
use hedjosur_simulate::page::commands;

/// Every exact command is run again; those on a trace where the environment
/// variable HEDJOSUR_TRACES names the traces' folder.
#[test]
fn the_page_shows_what_its_commands_print() {
    let root = Path::new(env!("CARGO_MANIFEST_DIR")).join("../..");
    let page = std::fs::read_to_string(root.join("docs/COSTS.md")).expect("the page");
    let traces = std::env::var("HEDJOSUR_TRACES").ok();
    let (mut compared, mut left) = (0, 0);
    for shown in commands(&page) {
        if !shown.is_exact() || shown.is_traced() && traces.is_none() {
            left += 1;
            continue;
        }
        let folder = traces.as_deref().unwrap_or_default();
        let arguments = shown.arguments.iter();
        let arguments = arguments.map(|word| word.replace("$HEDJOSUR_TRACES", folder));
        let options = Options::parse(arguments)
            .expect("options")
            .expect("no help");
        let outcomes = options.run(&mut |_, _| ()).expect("accepted");
        let command = shown.arguments.join(" ");
        assert_eq!(options.text(&outcomes), page[shown.text], "{command}");
        if let Some(drawing) = &options.drawing {
            let drawn = std::fs::read_to_string(root.join(&drawing.file));
            let drawn = drawn.expect("the drawing");
            assert!(drawing.svg(&outcomes) == drawn, "{command}");
        }
        compared += 1;
    }
    println!("{compared} tables compared, {left} left out");
    assert!(compared >= 7);
}

/// Each drawing that the page shows is there, and each that is there is shown.
#[test]
fn the_page_shows_every_drawing() {
    let docs = Path::new(env!("CARGO_MANIFEST_DIR")).join("../../docs");
    let page = std::fs::read_to_string(docs.join("COSTS.md")).expect("the page");
    let folder = std::fs::read_dir(docs.join("costs")).expect("the drawings");
    let files = folder.map(|entry| entry.expect("an entry").file_name());
    let mut there = Vec::from_iter(files.map(|name| name.to_string_lossy().into_owned()));
    let links = page.split("](costs/").skip(1);
    let mut shown = Vec::from_iter(links.map(|link| link.split(')').next().unwrap_or_default()));
    there.sort();
    shown.sort();
    assert_eq!(there, shown);
}
