//! The programs `why` and `cuttings`: what they tell after small scripts, what they say to
//! bad input, and the scripts that run them.

#[path = "../common/mod.rs"]
mod common;
mod cuttings;
mod why;

use std::path::Path;
use std::process::{Command, Output};

use common::root;
use hedjosur_model::testing::run_program;
use hedjosur_picture::command::Program;

/// Runs a program.
fn run(program: Program, arguments: &[&str], input: &[u8]) -> Output {
    let file = match program {
        Program::Why => env!("CARGO_BIN_EXE_why"),
        Program::Cuttings => env!("CARGO_BIN_EXE_cuttings"),
    };
    run_program(Path::new(file), arguments, input)
}

/// What a program prints for a script, which it reads from standard input; it notes
/// nothing.
fn told(program: Program, arguments: &[&str], script: &str) -> String {
    let output = run(program, arguments, script.as_bytes());
    assert_eq!(String::from_utf8_lossy(&output.stderr), "");
    assert!(output.status.success(), "{arguments:?}");
    String::from_utf8(output.stdout).expect("it prints text")
}

/// A program prints nothing but this message.
fn refused(program: Program, arguments: &[&str], script: &str, message: &str) {
    let output = run(program, arguments, script.as_bytes());
    let message = format!("{}: {message}\n", program.name());
    assert_eq!(String::from_utf8_lossy(&output.stderr), message);
    assert_eq!(output.status.code(), Some(2), "{message}");
    assert!(output.stdout.is_empty(), "{message}");
}

/// A script: a format, then flushes.
fn script(numbers: [u32; 4], batches: &[&[u32]]) -> String {
    let line = |operation: u32, numbers: &[u32]| {
        let numbers: String = numbers
            .iter()
            .map(|number| format!("{number:>8}"))
            .collect();
        format!("{operation:>2}{numbers}\n")
    };
    let flushes: String = batches.iter().map(|batch| line(2, batch)).collect();
    line(1, &numbers) + &flushes
}

/// Arguments that ask something of a script, before others.
fn asking<'a>(program: Program, script: &'a str, others: &[&'a str]) -> Vec<&'a str> {
    let asked: &[&str] = match program {
        Program::Why => &[script, "0"],
        Program::Cuttings => &[script],
    };
    [asked, others].concat()
}

#[test]
fn help() {
    for program in Program::ALL {
        for arguments in [&["--help"][..], &["nowhere", "5", "--help"]] {
            assert_eq!(told(program, arguments, ""), program.help());
        }
        assert!(program.help().starts_with(program.name()));
    }
}

#[test]
fn a_picture_is_printed_instead_of_the_words() {
    let script = script([9, 64, 256, 1], &[&[0, 1, 4, 5], &[1, 2, 4]]);
    for program in Program::ALL {
        let words = told(program, &asking(program, "-", &[]), &script);
        let title = words.lines().next().expect("a line");
        let picture = told(program, &asking(program, "-", &["--picture"]), &script);
        assert!(picture.starts_with("<svg ") && picture.ends_with("</svg>\n"));
        assert!(picture.contains(&format!("<title id=\"title\">{title}</title>")));
    }
}

#[test]
fn bad_options_and_scripts_are_refused_with_a_message() {
    let good = script([3, 4, 4, 0], &[&[0, 1]]);
    let bad = good.clone() + "2 0\n";
    let no_format = " 2       0\n";
    let refused_format = " 1       3       4       5       0\n";
    let not_formatted = "the script has no format that is accepted";
    let cases: [(&[&str], &str, &str); 9] = [
        (&["--lines"], &good, "--lines wants a number of lines"),
        (
            &["--lines", "all"],
            &good,
            "\"all\" is not a number of lines",
        ),
        (
            &["--svg"],
            &good,
            "there is no option --svg; --help says which",
        ),
        (&["--lines", "3"], &good, "the script has 2 lines, not 3"),
        (&["--lines", "0"], &good, not_formatted),
        (&[], no_format, not_formatted),
        (&[], refused_format, not_formatted),
        (&[], "", not_formatted),
        (
            &[],
            &bad,
            "line 3 of the script is no call: \"2 0\" (an operation 1 to 6 in 2 columns, \
             then its numbers, right-justified in 8 columns each)",
        ),
    ];
    for program in Program::ALL {
        for (options, script, message) in cases {
            refused(program, &asking(program, "-", options), script, message);
        }
    }
}

#[test]
fn a_script_that_cannot_be_read() {
    for program in Program::ALL {
        for script in ["nowhere.script", env!("CARGO_MANIFEST_DIR")] {
            let output = run(program, &asking(program, script, &[]), b"");
            let message = String::from_utf8_lossy(&output.stderr);
            let begins = format!("{}: can't read the script {script}: ", program.name());
            assert!(message.starts_with(&begins), "{message}");
            assert_eq!(output.status.code(), Some(2));
        }
    }
}

/// The scripts at the root, ./why and ./cuttings, in another folder than the repository's:
/// each prints what its program prints, and ends as it does.
#[test]
fn the_scripts_beside_list() {
    let here = root().join("docs/guide");
    for program in Program::ALL {
        for (file, code) in [("owners.script", 0), ("nowhere.script", 2)] {
            let mut command = Command::new(root().join(program.name()));
            command.args(asking(program, file, &[])).current_dir(&here);
            let output = command.output().expect("the script runs");
            let message = String::from_utf8_lossy(&output.stderr);
            let path = here.join(file);
            let path = path.to_string_lossy();
            let expected = run(program, &asking(program, &path, &[]), b"");
            assert_eq!(output.stdout, expected.stdout, "{message}");
            assert_eq!(output.status.code(), Some(code), "{message}");
            assert_eq!(message.is_empty(), code == 0, "{message}");
        }
    }
}

#[test]
fn the_scripts_without_cargo() {
    for program in Program::ALL {
        let name = program.name();
        let output = Command::new("bash")
            .args(["-c", "PATH=; . \"$0\""])
            .arg(root().join(name))
            .output()
            .expect("bash runs");
        assert_eq!(
            String::from_utf8_lossy(&output.stderr),
            format!("{name}: cargo is not there; it builds and runs this program\n")
        );
        assert_eq!(output.status.code(), Some(2));
    }
}
