//! What `cuttings` tells.

use crate::{refused, run, script, told};
use hedjosur_picture::command::Program::Cuttings;

/// The last flush, or with `--lines` an earlier one; with every page once and sorted.
#[test]
fn the_last_flush() {
    let script = script([12, 64, 272, 1], &[&[0, 1, 4, 5], &[256, 9, 3, 9, 6, 255]]);
    assert_eq!(
        told(Cuttings, &["-"], &script),
        "last flush (line 3): 5 pages from page 64 on, bound 1, in 2 groups\n\
         learned: 3 6 9 255 || 256\n\
         as few:  no other\n\
         cuttings into 2 records: 1, into 3: 3, into 4: 3, into 5: 1\n\
         into fewer: none\n"
    );
    assert_eq!(
        told(Cuttings, &["--lines", "2", "-"], &script),
        "last flush (line 2): 4 pages from page 0 on, bound 1\n\
         learned: 0 1 4 5\n\
         as few:  no other\n\
         cuttings into 1 record: 1, into 2: 3, into 3: 3, into 4: 1\n\
         into fewer: none\n"
    );
}

/// A refused flush is noted and not told of.
#[test]
fn a_refused_flush() {
    let script = script([3, 4, 4, 0], &[&[0, 1], &[1, 3], &[2]]);
    let output = run(Cuttings, &["-"], script.as_bytes());
    assert_eq!(
        String::from_utf8_lossy(&output.stdout),
        "last flush (line 3): 2 pages from page 4 on, bound 0\n\
         learned: 1 3\n\
         as few:  no other\n\
         cuttings into 1 record: 1, into 2: 1\n\
         into fewer: none\n"
    );
    assert_eq!(
        String::from_utf8_lossy(&output.stderr),
        "cuttings: line 4 of the script is refused 6 and changes nothing\n"
    );
    assert!(output.status.success());
}

#[test]
fn bad_input_is_refused_with_a_message() {
    let good = script([3, 4, 4, 0], &[&[0, 1]]);
    let none_accepted = script([3, 4, 4, 0], &[&[4]]);
    let wanted = "it wants a script; --help says more";
    let no_flush = "the script has no flush that is accepted";
    let cases: [(&[&str], &str, &str); 5] = [
        (&[], "", wanted),
        (&["-", "0"], &good, wanted),
        (&["-", "--lines", "1"], &good, no_flush),
        (&["-"], &none_accepted, no_flush),
        (&["-", "--picture"], &none_accepted, no_flush),
    ];
    for (arguments, input, message) in cases {
        refused(Cuttings, arguments, input, message);
    }
}
