//! A page of documentation whose tables are what commands print.
//!
//! Each command is a block of its own, marked `sh`, that runs this program; the
//! next block, marked `text`, is what it prints. Other text that is made stands
//! between two marks.

use std::ops::Range;

/// How a command on a page begins.
pub const COMMAND: &str = "cargo run --release --manifest-path rust/Cargo.toml --bin simulate -- ";

/// A command and the block that shows what it prints.
#[derive(Clone, Debug, PartialEq, Eq)]
pub struct Shown {
    /// The program's arguments.
    pub arguments: Vec<String>,
    /// Where the printed text stands in the page, in bytes.
    pub text: Range<usize>,
}

impl Shown {
    /// Whether it prints the same each time.
    pub fn is_exact(&self) -> bool {
        self.arguments.iter().any(|argument| argument == "--exact")
    }

    /// Whether it needs a trace.
    pub fn is_traced(&self) -> bool {
        self.arguments.iter().any(|argument| argument == "--trace")
    }
}

/// The commands of a page.
pub fn commands(page: &str) -> Vec<Shown> {
    let mut shown = Vec::new();
    let mut from = 0;
    while let Some(start) = find(page, from, "```sh\n") {
        let Some(end) = find(page, start, "```\n") else {
            break;
        };
        from = end;
        let command = page[start..end - 4].replace("\\\n", " ");
        let Some(arguments) = command.strip_prefix(COMMAND) else {
            continue;
        };
        let arguments = arguments.split_whitespace().map(String::from).collect();
        let text = find(page, end, "```text\n");
        let text = text.expect("what the command prints stands behind it");
        let end = find(page, text, "```\n").expect("a block has an end");
        let text = text..end - 4;
        shown.push(Shown { arguments, text });
        from = end;
    }
    shown
}

/// Where the text between a name's two marks stands, in bytes: the lines `<!-- name
/// -->` and `<!-- /name -->`.
pub fn between(page: &str, name: &str) -> Option<Range<usize>> {
    let start = find(page, 0, &format!("<!-- {name} -->\n"))?;
    let close = format!("<!-- /{name} -->\n");
    let end = find(page, start, &close)?;
    Some(start..end - close.len())
}

/// Where the first `words` from a place on end.
fn find(page: &str, from: usize, words: &str) -> Option<usize> {
    page[from..].find(words).map(|at| from + at + words.len())
}

#[cfg(test)]
mod tests {
    use super::*;

    #[test]
    fn commands_are_found_with_what_they_print() {
        let page = format!(
            "# Page\n```sh\nls\n```\n```sh\n{COMMAND}--load random \\\n  --exact\n```\nwords\n```text\na\nb\n```\n"
        );
        let shown = commands(&page);
        assert_eq!(shown.len(), 1);
        assert_eq!(shown[0].arguments, ["--load", "random", "--exact"]);
        assert_eq!(&page[shown[0].text.clone()], "a\nb\n");
        assert!(shown[0].is_exact() && !shown[0].is_traced());
    }

    #[test]
    fn what_stands_between_marks_is_found() {
        let page = "words\n<!-- a -->\nb\nc\n<!-- /a -->\n<!-- d -->\n";
        let place = between(page, "a").expect("both marks");
        assert_eq!(&page[place], "b\nc\n");
        assert_eq!((between(page, "d"), between(page, "e")), (None, None));
    }
}
