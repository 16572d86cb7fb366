//! What the tests of the listing program share.

use std::path::Path;

use hedjosur_model::testing;

/// What the built listing program prints for a script.
pub fn run_program(script: &[u8]) -> String {
    let program = Path::new(env!("CARGO_BIN_EXE_listing"));
    let output = testing::run_program(program, &[], script);
    assert!(output.status.success());
    String::from_utf8(output.stdout).expect("it prints text")
}
