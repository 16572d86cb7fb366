//! The guide can't go stale: its scripts print what it says, what it quotes is
//! the files' text, and the theorems and contracts that it names are there.

mod common;

#[path = "../examples/answers/calls.rs"]
mod calls;

#[path = "../examples/quotes/commands.rs"]
mod commands;

use std::collections::BTreeSet;
use std::fs;
use std::path::{Path, PathBuf};

use commands::{quotes, Quote, PROMPT};
use common::{guide_files, root, text};
use hedjosur_model::script::{self, HEAD};
use hedjosur_model::testing::{proved_listing, run_program};

/// The text of the script that a file of the guide belongs to.
fn script_of(file: &Path) -> Vec<u8> {
    text(&file.with_extension("script")).into_bytes()
}

#[test]
fn every_script_gives_its_listing() {
    for file in guide_files("script") {
        let listing = text(&file.with_extension("listing"));
        assert_eq!(script::run(&script_of(&file)), listing, "{file:?}");
    }
    assert_eq!(guide_files("listing").len(), guide_files("script").len());
}

/// The same by the proved program.
#[test]
fn every_script_gives_its_listing_by_the_proved_program() {
    for file in guide_files("script") {
        let output = run_program(&proved_listing(), &[], &script_of(&file));
        let printed = String::from_utf8(output.stdout).expect("it prints text");
        assert_eq!(printed, text(&file.with_extension("listing")), "{file:?}");
    }
}

/// A bad line would teach nothing.
#[test]
fn every_line_of_a_script_is_a_call() {
    for file in guide_files("script") {
        for line in text(&file).lines() {
            assert!(script::read_line(line.as_bytes()).is_some(), "{line:?}");
        }
    }
}

/// A script has a file of answers exactly if it has a lookup or a collection.
#[test]
fn every_script_gives_its_answers() {
    let mut with_answers = 0;
    for file in guide_files("script") {
        let answers = calls::answers(&script_of(&file));
        let stored = file.with_extension("answers");
        assert_eq!(stored.exists(), !answers.is_empty(), "{stored:?}");
        if !answers.is_empty() {
            assert_eq!(answers, text(&stored), "{stored:?}");
            with_answers += 1;
        }
    }
    assert_eq!(guide_files("answers").len(), with_answers);
}

/// A file NAME.why or NAME.cuttings has commands of that program, each with what it prints,
/// and nothing else. A picture is written into a file instead.
#[test]
fn every_quoted_command_gives_what_is_quoted() {
    for file in quotes() {
        let quoted = text(&file);
        let quote = Quote::anew(&quoted, &root());
        assert_eq!(quote.text, quoted, "{file:?}");
        let program = file.extension().expect("a program").to_string_lossy();
        let commands = quoted.lines().filter_map(|line| line.strip_prefix(PROMPT));
        for command in commands {
            assert!(command.starts_with(&format!("{program} ")), "{file:?}");
            let is_picture = command.contains(" --picture");
            assert_eq!(command.contains(" > "), is_picture, "{command}");
        }
    }
}

/// A fenced block: the file that its first line names, if any, and its text.
struct Block {
    file: Option<String>,
    text: String,
}

/// A document's fenced blocks, and the rest of it.
fn blocks(document: &str) -> (Vec<Block>, String) {
    let (mut blocks, mut rest) = (Vec::new(), String::new());
    let mut lines = document.lines();
    while let Some(line) = lines.next() {
        let Some(words) = line.strip_prefix("```") else {
            rest += line;
            rest.push('\n');
            continue;
        };
        let file = words.split_whitespace().nth(1).map(str::to_string);
        let text = lines.by_ref().take_while(|line| *line != "```");
        let text = text.map(|line| line.to_string() + "\n").collect();
        blocks.push(Block { file, text });
    }
    (blocks, rest)
}

#[test]
fn what_the_guide_quotes_is_the_files_text() {
    let (blocks, _) = blocks(&text(&root().join("docs/GUIDE.md")));
    let mut quoted = BTreeSet::new();
    for block in &blocks {
        let Some(file) = &block.file else {
            // A block without a file is a drawing or a command.
            let quotes = |line: &str| {
                line == HEAD
                    || line.starts_with(PROMPT)
                    || script::read_line(line.as_bytes()).is_some()
            };
            assert!(!block.text.lines().any(quotes), "{}", block.text);
            continue;
        };
        assert_eq!(
            block.text,
            text(&root().join("docs").join(file)),
            "the guide quotes {file} otherwise"
        );
        assert!(quoted.insert(file.clone()), "{file} is quoted twice");
    }
    let stored = ["script", "listing", "answers"].map(guide_files);
    for file in stored.into_iter().flatten().chain(quotes()) {
        let name = file.file_name().expect("a file").to_string_lossy();
        let name = format!("guide/{name}");
        assert!(quoted.remove(&name), "the guide doesn't quote {name}");
    }
    assert!(quoted.is_empty(), "{quoted:?}");
}

/// Names in code marks outside fenced blocks: `File.name` is a definition or
/// theorem in a `File.antt` of crates/, `crate::function` a function of that
/// crate, and a path is a file or a folder.
#[test]
fn every_name_that_the_documents_cite_is_there() {
    let crates = root().join("crates");
    for (document, least) in [("docs/GUIDE.md", 20), ("docs/MAINTAINING.md", 5)] {
        let (_, rest) = blocks(&text(&root().join(document)));
        let mut cited = 0;
        for span in rest.split('`').skip(1).step_by(2) {
            let there = if let Some((name, function)) = span.split_once("::") {
                has_function(&crates.join(name).join("src"), function)
            } else if let Some((file, name)) = theorem(span) {
                let file = format!("{file}.antt");
                files_below(&crates)
                    .iter()
                    .filter(|path| path.file_name().is_some_and(|found| *found == *file))
                    .any(|path| text(path).lines().any(|line| defines(line, name)))
            } else if ["crates/", "docs/", "rust/"]
                .iter()
                .any(|folder| span.starts_with(folder))
            {
                root().join(span).exists()
            } else {
                continue;
            };
            assert!(there, "{document} cites `{span}`, which is not there");
            cited += 1;
        }
        assert!(cited >= least, "{document} cites {cited} names");
    }
}

/// `File.name` taken apart; None for other words.
fn theorem(span: &str) -> Option<(&str, &str)> {
    let (file, name) = span.split_once('.')?;
    let plain = |part: &str| {
        let letter = |c: char| c.is_ascii_alphanumeric() || ['-', '_', '\''].contains(&c);
        !part.is_empty() && part.chars().all(letter)
    };
    let is_file = plain(file) && file.starts_with(|c: char| c.is_ascii_uppercase());
    (is_file && plain(name) && name != "md").then_some((file, name))
}

/// Whether a line states this name: the words before it only say how it is kept,
/// behind it comes its type or what it is made of.
fn defines(line: &str, name: &str) -> bool {
    let modifiers = ["unfoldable", "abbrev", "pub", "record", "data"];
    let mut words = line
        .split_whitespace()
        .skip_while(|word| modifiers.contains(word));
    let behind = |word: &str| word.starts_with([':', '(', '{']);
    words.next() == Some(name) && words.next().is_some_and(behind)
}

fn has_function(folder: &Path, function: &str) -> bool {
    let head = format!("fn {function}(");
    files_below(folder)
        .iter()
        .filter(|path| path.extension().is_some_and(|found| found == "rt"))
        .any(|path| text(path).contains(&head))
}

/// All files in a folder and the folders below, but for what the prover keeps in
/// `out`; none if there is no such folder.
fn files_below(folder: &Path) -> Vec<PathBuf> {
    let Ok(entries) = fs::read_dir(folder) else {
        return Vec::new();
    };
    entries
        .map(|entry| entry.expect("it can be read").path())
        .filter(|path| !path.ends_with("out"))
        .flat_map(|path| match path.is_dir() {
            true => files_below(&path),
            false => vec![path],
        })
        .collect()
}

#[test]
fn the_search_for_names_finds_what_is_there_and_nothing_else() {
    assert_eq!(theorem("Demand3.never"), Some(("Demand3", "never")));
    assert_eq!(theorem("TRACE.md"), None);
    assert_eq!(theorem("docs/TRACE.md"), None);
    assert_eq!(theorem("rt dev"), None);
    assert!(defines("pub insert-met : (r : Record)", "insert-met"));
    assert!(defines("  pub refusedBytes : accepted a", "refusedBytes"));
    assert!(defines("pub record Ran (c : Call)", "Ran"));
    assert!(!defines("sink s [] = (s ∷ []) ∷ []", "sink"));
    assert!(!defines("pub insert-met : (r : Record)", "insert"));
    let crates = root().join("crates");
    assert!(has_function(&crates.join("lookup/src"), "lookup"));
    assert!(!has_function(&crates.join("lookup/src"), "look"));
    assert!(!has_function(&crates.join("nowhere/src"), "lookup"));
}
