//! Writes what the commands of a page print into it, and their drawings, from the
//! repository's root: `cargo run --release --manifest-path rust/Cargo.toml -p
//! hedjosur-simulate --example page -- docs/COSTS.md`. Commands that need a trace
//! are run where the environment variable HEDJOSUR_TRACES names the traces' folder; those
//! that print times, where `--times` is given.

#![forbid(unsafe_code)]

use hedjosur_simulate::options::Options;
use hedjosur_simulate::page::commands;

fn main() -> Result<(), Box<dyn std::error::Error>> {
    let arguments = Vec::from_iter(std::env::args().skip(1));
    let file = arguments.first().ok_or("which page?")?;
    let times = arguments.iter().any(|argument| argument == "--times");
    let traces = std::env::var("HEDJOSUR_TRACES").ok();
    let mut page = std::fs::read_to_string(file)?;
    // From the last on, so that the places of the ones before stay.
    for shown in commands(&page).into_iter().rev() {
        if !shown.is_exact() && !times || shown.is_traced() && traces.is_none() {
            continue;
        }
        eprintln!("{}", shown.arguments.join(" "));
        let folder = traces.as_deref().unwrap_or_default();
        let arguments = shown
            .arguments
            .iter()
            .map(|word| word.replace("$HEDJOSUR_TRACES", folder));
        let options = Options::parse(arguments)?.ok_or("a page doesn't show the help")?;
        let outcomes = options.run(&mut |_, _| ())?;
        page.replace_range(shown.text, &options.text(&outcomes));
        if let Some(drawing) = &options.drawing {
            std::fs::write(&drawing.file, drawing.svg(&outcomes))?;
        }
    }
    std::fs::write(file, page)?;
    Ok(())
}
