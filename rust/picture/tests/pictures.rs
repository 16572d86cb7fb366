//! The guide's pictures: they are what the picture program makes of a listing, or what a
//! quoted command writes. Bad input of the picture program is refused.

#[path = "../examples/quotes/commands.rs"]
mod commands;
mod common;

use std::collections::BTreeSet;
use std::path::{Path, PathBuf};
use std::process::Output;

use commands::{quotes, Quote};
use common::{guide_files, root, text};
use hedjosur_model::testing::run_program;

/// Runs the picture program.
fn run(arguments: &[&str], input: &[u8]) -> Output {
    run_program(Path::new(env!("CARGO_BIN_EXE_picture")), arguments, input)
}

/// The pictures that the quoted commands write.
fn of_quotes() -> Vec<(PathBuf, String)> {
    quotes()
        .flat_map(|file| Quote::anew(&text(&file), &root()).pictures)
        .collect()
}

#[test]
fn every_picture_is_made_from_its_listing_or_by_a_quoted_command() {
    let quoted = of_quotes();
    let targets: BTreeSet<&PathBuf> = quoted.iter().map(|(target, _)| target).collect();
    assert_eq!(targets.len(), quoted.len(), "two commands write one file");
    for (target, drawn) in &quoted {
        assert_eq!(*drawn, text(target), "{target:?} is not what is drawn");
    }
    for picture in guide_files("svg") {
        if targets.contains(&picture) {
            continue;
        }
        let listing = text(&picture.with_extension("listing"));
        let output = run(&[], listing.as_bytes());
        assert!(output.status.success(), "{}", picture.display());
        let drawn = String::from_utf8(output.stdout).expect("it prints text");
        assert_eq!(
            drawn,
            text(&picture),
            "{} is not what the program makes of its listing",
            picture.display()
        );
    }
}

/// Each picture stands in the guide, with words for those who don't see it, and
/// the guide shows no other.
#[test]
fn the_guide_shows_every_picture() {
    let guide = text(&root().join("docs/GUIDE.md"));
    let shown: Vec<(&str, &str)> = guide
        .lines()
        .filter_map(|line| line.strip_prefix("![")?.strip_suffix(')')?.split_once("]("))
        .collect();
    assert_eq!(guide.matches("![").count(), shown.len());
    for picture in guide_files("svg") {
        let name = picture.file_name().expect("a file").to_string_lossy();
        let target = format!("guide/{name}");
        let words = shown.iter().find(|(_, path)| *path == target);
        let (words, _) = words.unwrap_or_else(|| panic!("the guide doesn't show {target}"));
        assert!(words.len() > 20, "{target}: \"{words}\"");
    }
    assert_eq!(shown.len(), guide_files("svg").len());
}

#[test]
fn bad_input_is_refused_with_a_message() {
    let head = " LEVEL START  SPAN  WORD INTERCEPT\n";
    let refused = head.to_string() + "refused 6\n";
    let cases: [(&[&str], &[u8], &str); 5] = [
        (&[], b"", "picture: there is no listing: the input is empty\n"),
        (
            &[],
            b"bad line\n",
            "picture: line 1: a listing starts with the head line \" LEVEL START  SPAN  WORD INTERCEPT\"\n",
        ),
        (
            &[],
            refused.as_bytes(),
            "picture: line 2: \"refused 6\" is not a record: \
             five numbers, right-justified in widths 6, 6, 6, 6 and 10\n",
        ),
        (&[], b"\xff\n", "picture: the input is not text\n"),
        (
            &["group.listing"],
            head.as_bytes(),
            "picture: it reads a listing on standard input and takes no argument\n",
        ),
    ];
    for (arguments, input, message) in cases {
        let output = run(arguments, input);
        assert_eq!(String::from_utf8_lossy(&output.stderr), message);
        assert_eq!(output.status.code(), Some(1), "{message}");
        assert!(output.stdout.is_empty(), "{message}");
    }
}
