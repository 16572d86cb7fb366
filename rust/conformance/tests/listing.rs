//! The proved listing program against the model's, byte for byte.

use hedjosur_conformance::scripts::check_scripts;
use hedjosur_model::testing::{proved_listing, run_program};

#[test]
fn scripts() {
    let program = proved_listing();
    check_scripts(|text| {
        let output = run_program(&program, &[], text);
        assert!(output.status.success(), "it ends with {}", output.status);
        output.stdout
    });
}
