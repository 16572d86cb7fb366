//! What `why` tells.

use crate::common::{guide_files, root, text};
use crate::{refused, run, script, told};
use hedjosur_model::script::{read_line, Line};
use hedjosur_picture::command::Program::Why;

/// All four reasons in one answer: the accurate record of 0 and 3, the single 2, the
/// approximate record of 0, 2 and 3, and the single 1.
#[test]
fn all_four_reasons() {
    let script = script([5, 4, 4, 1], &[&[1], &[0, 2, 3], &[2], &[0, 3]]);
    assert_eq!(
        told(Why, &["-", "1"], &script),
        "why 1: offset 1 of group 0\n\
         level 0: record 0..3, stride 3: 1 is off the stride\n\
         level 1: no record covers 1\n\
         level 2: record 0..3, approximate: 1 is not owned by it, nor by any other\n\
         level 3: record 1, single: 1 is a member, page 0 is predicted\n\
         entry 0 of page 0 (for no page) names nobody\n\
         entry 1 of page 0 (for page 0) names 1: it decides\n\
         entry 2 of page 0 (for page 1) names nobody\n\
         page 0, one read\n"
    );
}

#[test]
fn an_owner_and_a_second_read() {
    let flushes: [&[u32]; 2] = [&[0, 1, 2, 6], &[1, 3, 4]];
    assert_eq!(
        told(Why, &["-", "2"], &script([9, 64, 256, 1], &flushes[..1])),
        "why 2: offset 2 of group 0\n\
         level 0: record 0..6, approximate: 2 is a member, page 1 is predicted\n\
         entry 0 of page 1 (for page 0) names 0\n\
         entry 1 of page 1 (for page 1) names 1\n\
         entry 2 of page 1 (for page 2) names 2: it decides\n\
         page 2, two reads: page 1 was predicted, its entry 2 names 2\n"
    );
    let lines = told(Why, &["-", "2"], &script([9, 64, 256, 1], &flushes));
    assert!(
        lines.contains(
            "level 0: record 1..4, approximate: 2 is not owned by it, \
             but by the approximate record from 0\n"
        ),
        "{lines}"
    );
}

/// Entries name logical pages, the levels have offsets. An accurate record that has shrunk
/// to one member keeps its stride.
#[test]
fn a_later_group() {
    let script = script([12, 64, 272, 0], &[&[256, 258], &[256]]);
    assert_eq!(
        told(Why, &["-", "258"], &script),
        "why 258: offset 2 of group 1\n\
         level 0: record 2..2, stride 2: 2 is a member, page 1 is predicted\n\
         entry 0 of page 1 (for page 1) names 258: it decides\n\
         page 1, one read\n"
    );
    assert_eq!(
        told(Why, &["-", "271"], &script),
        "why 271: offset 15 of group 1\n\
         level 0: no record covers 15\n\
         not written, 1 level looked at\n"
    );
    assert_eq!(
        told(Why, &["-", "255"], &script),
        "why 255: offset 255 of group 0\n\
         not written, 0 levels looked at: the group has no record\n"
    );
}

/// Collections and compactions are made, lookups and listings change nothing, and of what
/// is refused there is a note.
#[test]
fn calls_of_every_kind() {
    let guide = root().join("docs/guide");
    let collection = guide.join("collection.script");
    let output = run(Why, &[&collection.to_string_lossy(), "3"], b"");
    assert_eq!(
        String::from_utf8_lossy(&output.stdout),
        "why 3: offset 3 of group 0\n\
         level 0: record 1..3, stride 1: 3 is a member, page 11 is predicted\n\
         entry 0 of page 11 (for page 11) names 3: it decides\n\
         page 11, one read\n"
    );
    assert_eq!(
        String::from_utf8_lossy(&output.stderr),
        "why: line 4 of the script is refused 6 and changes nothing\n"
    );
    assert!(output.status.success());
    let compacted = guide.join("agreement.script");
    let compacted = compacted.to_string_lossy();
    let before = run(Why, &[&compacted, "3", "--lines", "7"], b"").stdout;
    assert!(before.ends_with(b"not written, 2 levels looked at\n"));
    let after = run(Why, &["--lines", "8", &compacted, "3"], b"").stdout;
    assert!(after.ends_with(b"not written, 1 level looked at\n"));
}

/// The lookups of the guide's scripts, each after the lines before it: the same page and as
/// many levels as the guide says that they answer.
#[test]
fn the_lookups_of_the_guide() {
    for file in guide_files("answers") {
        let script = file.with_extension("script");
        let answers = text(&file);
        let mut answers = answers
            .lines()
            .filter_map(|line| line.strip_prefix("lookup "));
        for (number, line) in text(&script).lines().enumerate() {
            let Some(Line::Lookup(page)) = read_line(line.as_bytes()) else {
                continue;
            };
            let (script, lines) = (script.to_string_lossy(), number.to_string());
            let output = run(Why, &[&script, &page.to_string(), "--lines", &lines], b"");
            let told = String::from_utf8(output.stdout).expect("it prints text");
            let levels = told
                .lines()
                .filter(|line| line.starts_with("level "))
                .count();
            let last = told.lines().last().expect("a line");
            let found = last.split(',').next().expect("words before a comma");
            let answer = answers.next().expect("an answer");
            let levels = match levels {
                1 => "1 level".to_string(),
                _ => format!("{levels} levels"),
            };
            assert!(answer.starts_with(&format!("{page}: {found},")), "{answer}");
            assert!(answer.ends_with(&format!(", {levels}")), "{answer}");
        }
        assert_eq!(answers.next(), None, "{file:?}");
    }
}

#[test]
fn bad_input_is_refused_with_a_message() {
    let good = script([3, 4, 4, 0], &[&[0, 1]]);
    let wanted = "it wants a script and a logical page; --help says more";
    let too_large = "refused 4: logical page 4 is not below N, which is 4";
    let cases: [(&[&str], &str); 10] = [
        (&[], wanted),
        (&["-"], wanted),
        (&["-", "0", "1"], wanted),
        (&["-", "five"], "\"five\" is not a logical page"),
        (&["-", "+5"], "\"+5\" is not a logical page"),
        (&["-", ""], "\"\" is not a logical page"),
        (&["-", "4294967296"], "\"4294967296\" is not a logical page"),
        (&["-", "-1"], "there is no option -1; --help says which"),
        (&["-", "4"], too_large),
        (&["-", "4", "--picture"], too_large),
    ];
    for (arguments, message) in cases {
        refused(Why, arguments, &good, message);
    }
}
