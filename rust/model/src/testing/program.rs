//! The running of a program.

use std::io::Write;
use std::path::{Path, PathBuf};
use std::process::{Command, Output, Stdio};
use std::{env, thread};

/// Runs a program on this standard input to its end.
pub fn run_program(program: &Path, arguments: &[&str], input: &[u8]) -> Output {
    let mut child = Command::new(program)
        .args(arguments)
        .stdin(Stdio::piped())
        .stdout(Stdio::piped())
        .stderr(Stdio::piped())
        .spawn()
        .unwrap_or_else(|error| panic!("{}: {error}", program.display()));
    let mut stdin = child.stdin.take().expect("its standard input");
    // Written beside the reading, so that neither waits for the other; a program
    // that stops early doesn't read it all.
    thread::scope(|scope| {
        scope.spawn(move || stdin.write_all(input));
        child.wait_with_output().expect("it ends")
    })
}

/// The proved listing program: the file that the environment variable
/// `HEDJOSUR_LISTING` names, or `crates/listing/out/listing` of the repository.
pub fn proved_listing() -> PathBuf {
    let here = Path::new(env!("CARGO_MANIFEST_DIR")).join("../../crates/listing/out/listing");
    let program = env::var_os("HEDJOSUR_LISTING").map_or(here, PathBuf::from);
    assert!(
        program.is_file(),
        "{} is not there; `rt run` in crates/listing builds it",
        program.display()
    );
    program
}
