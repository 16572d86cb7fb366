//! A refusal has one name and one number: in the model, in the wrapper, in C and in
//! Rattle.

use std::fs;
use std::path::Path;

use hedjosur_model::ops::Refusal;

/// The model's refusals, by number.
fn refusals() -> Vec<(String, u32)> {
    let refusals = Refusal::ALL.into_iter().zip(1..);
    let named = refusals.map(|(refusal, number)| {
        assert_eq!(refusal.number(), number);
        (format!("{refusal:?}"), number)
    });
    named.collect()
}

/// The lines of an enum in a file of the repository, without the comments.
fn lines_of(file: &str, head: &str) -> Vec<String> {
    let path = Path::new(env!("CARGO_MANIFEST_DIR"))
        .join("../..")
        .join(file);
    let text = fs::read_to_string(path).unwrap_or_else(|error| panic!("{file}: {error}"));
    let lines = text.lines().skip_while(|line| *line != head).skip(1);
    let lines = lines.take_while(|line| !line.starts_with('}'));
    let lines = lines.map(|line| line.trim().trim_end_matches(',').to_string());
    // A comment's further lines start with an asterisk.
    let is_comment = |line: &String| line.starts_with("/*") || line.starts_with('*');
    lines.filter(|line| !is_comment(line)).collect()
}

/// A name in capitals, its words joined by underscores.
fn in_capitals(name: &str) -> String {
    let mut capitals = String::new();
    for letter in name.chars() {
        if letter.is_ascii_uppercase() && !capitals.is_empty() {
            capitals.push('_');
        }
        capitals.push(letter.to_ascii_uppercase());
    }
    capitals
}

#[test]
fn in_the_wrapper() {
    let wrapper = hedjosur::Refusal::ALL.iter();
    let wrapper = wrapper.map(|refusal| (format!("{refusal:?}"), refusal.number()));
    assert_eq!(Vec::from_iter(wrapper), refusals());
}

#[test]
fn in_c() {
    let header = lines_of(
        "rust/hedjosur/include/hedjosur.h",
        "enum hedjosur_refusal {",
    );
    let named = refusals().into_iter().map(|(name, number)| {
        let name = in_capitals(&name);
        format!("HEDJOSUR_{name} = {number}")
    });
    let accepted = "HEDJOSUR_ACCEPTED = 0".to_string();
    assert_eq!(header, Vec::from_iter([accepted].into_iter().chain(named)));
}

/// In the order of their numbers.
#[test]
fn in_rattle() {
    let rattle = lines_of("crates/answers/src/lib.rt", "pub enum Refusal {");
    let names = refusals().into_iter().map(|(name, _)| name);
    assert_eq!(rattle, Vec::from_iter(names));
}
