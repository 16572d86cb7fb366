//! The listing program: which lines are bad, and what the others print.

mod common;

use common::run_program;
use hedjosur_model::script::{read_line, run, Line, BAD_LINE, HEAD};

/// A line of an operation and its numbers, laid out as the program reads it.
fn line(operation: u32, numbers: &[u32]) -> String {
    let numbers = numbers.iter().map(|number| format!("{number:>8}"));
    format!("{operation:>2}{}\n", numbers.collect::<String>())
}

/// Document 01's device: M 9, B 64, N 256, g 1.
fn format_line() -> String {
    line(1, &[9, 64, 256, 1])
}

/// Runs a script through library and program, which print the same.
fn printed(script: &str) -> String {
    let text = run(script.as_bytes());
    assert_eq!(run_program(script.as_bytes()), text);
    text
}

#[test]
fn lines_that_are_calls() {
    let read = |text: String| read_line(text.trim_end_matches('\n').as_bytes());
    assert_eq!(read(format_line()), Some(Line::Format([9, 64, 256, 1])));
    assert_eq!(read(line(2, &[5, 3])), Some(Line::Flush(vec![5, 3])));
    assert_eq!(read(line(2, &[])), Some(Line::Flush(vec![])));
    assert_eq!(
        read(line(2, &[99_999_999; 64])),
        Some(Line::Flush(vec![99_999_999; 64]))
    );
    assert_eq!(read(line(3, &[50])), Some(Line::Lookup(50)));
    assert_eq!(read(line(4, &[])), Some(Line::Collection));
    assert_eq!(read(line(5, &[1])), Some(Line::Compaction(1)));
    assert_eq!(read(line(6, &[0])), Some(Line::List(0)));
    // Leading zeros, in both kinds of columns.
    assert_eq!(read("0300000050".into()), Some(Line::Lookup(50)));
    assert_eq!(read("03     050".into()), Some(Line::Lookup(50)));
}

#[test]
fn bad_lines() {
    let too_many = line(2, &[1; 65]);
    let bad: &[&[u8]] = &[
        // No operation, or not right-justified in its 2 columns.
        b"",
        b" ",
        b"  ",
        b"4",
        b"4 ",
        b"          ",
        // No such operation.
        b" 0",
        b" 7       1",
        b"44",
        b"-4",
        b"+4",
        b" x",
        // A length that is not 2 + 8k, trailing blanks, an empty field.
        b" 3      5",
        b" 3       50",
        b" 3       5 ",
        b" 4 ",
        b" 4        ",
        b" 2       1        ",
        b" 2               1",
        // Not right-justified, not decimal.
        b" 3      5 ",
        b" 3    5  5",
        b" 3      -5",
        b" 3      +5",
        b" 3     0x5",
        b" 3     1.0",
        b" 3   1,000",
        // Carriage returns, tabs, other bytes.
        b" 4\r",
        b"\r",
        b" 3       5\r",
        b" 3      \r5",
        b" 3\t      5",
        b"\t4",
        b" 3      \xff5",
        b" 3      \x005",
        b"\xc3\xa94",
        b" 3     \xc2\xb25",
        // Another count of numbers than the operation has.
        b" 1       9      64     256",
        b" 1       9      64     256       1       1",
        b" 1",
        b" 3",
        b" 3       1       2",
        b" 4       1",
        b" 5",
        b" 5       0       0",
        b" 6",
        b" 6       0       0",
        too_many.trim_end_matches('\n').as_bytes(),
    ];
    for text in bad {
        let shown = text.escape_ascii();
        assert_eq!(read_line(text), None, "{shown}");
        // A bad line changes nothing and doesn't hide the lines around it.
        let script = [
            format_line().as_bytes(),
            text,
            b"\n",
            line(6, &[0]).as_bytes(),
        ]
        .concat();
        let expected = format!("{BAD_LINE}\n{HEAD}\n");
        assert_eq!(run(&script), expected, "{shown}");
    }
    let all = bad.join(&b'\n');
    assert_eq!(run_program(&all), "bad line\n".repeat(bad.len()));
}

#[test]
fn a_newline_alone_is_a_bad_line_and_nothing_is_no_line() {
    assert_eq!(printed(""), "");
    assert_eq!(printed("\n"), "bad line\n");
    assert_eq!(printed("\n\n"), "bad line\nbad line\n");
}

#[test]
fn the_last_line_may_lack_its_newline() {
    let script = format_line() + &line(2, &[7]) + &line(6, &[0]);
    let expected = format!("{HEAD}\n     0     7     0     0         0\n");
    assert_eq!(printed(&script), expected);
    assert_eq!(printed(script.trim_end_matches('\n')), expected);
}

#[test]
fn before_a_format_every_call_is_refused_1() {
    let calls = [
        line(2, &[0]),
        line(2, &[]),
        line(3, &[0]),
        line(3, &[99_999_999]),
        line(4, &[]),
        line(5, &[0]),
        line(6, &[0]),
    ];
    assert_eq!(printed(&calls.concat()), "refused 1\n".repeat(calls.len()));
    // A refused format doesn't change that, an accepted one does.
    let script = line(1, &[2, 64, 1, 0]) + &line(6, &[0]) + &format_line() + &line(6, &[0]);
    assert_eq!(printed(&script), format!("refused 1\nrefused 1\n{HEAD}\n"));
}

#[test]
fn limits_of_the_program() {
    let accepted = [
        [9, 64, 256, 1],
        // N 1,024.
        [33, 64, 1024, 0],
        // 8,192 spare entries, and 8,184 with g above 0.
        [32, 256, 1024, 0],
        [2048, 4, 1024, 0],
        [4, 186, 279, 5],
    ];
    for numbers in accepted {
        let script = line(1, &numbers) + &line(6, &[0]);
        assert_eq!(run(script.as_bytes()), format!("{HEAD}\n"), "{numbers:?}");
    }
    let refused = [
        // N 1,025; 8,196 and 8,208 spare entries.
        [33, 65, 1025, 0],
        [2049, 4, 1024, 0],
        [6, 72, 180, 9],
        // Outside the device's own limits.
        [9, 64, 257, 1],
        [9, 64, 256, 16],
        [2, 64, 1, 0],
        [99_999_999, 99_999_999, 99_999_999, 99_999_999],
    ];
    for numbers in refused {
        // The state stays as it was, formatted and written.
        let script = format_line() + &line(2, &[7]) + &line(1, &numbers) + &line(3, &[7]);
        assert_eq!(run(script.as_bytes()), "refused 1\n", "{numbers:?}");
    }
}

#[test]
fn refusals_are_printed_with_their_numbers() {
    let device = line(1, &[3, 4, 4, 0]);
    let script = [
        device.clone(),
        // An empty batch, one longer than B, a logical page that is N.
        line(2, &[]),
        line(2, &[0; 5]),
        line(2, &[0, 4]),
        // No block is used.
        line(4, &[]),
        // No such logical page, no such group.
        line(3, &[4]),
        line(5, &[1]),
        line(6, &[1]),
        // Two flushes fill the device; one collection makes room again.
        line(2, &[0]),
        line(2, &[0]),
        line(2, &[0]),
        line(4, &[]),
        line(2, &[0]),
        line(3, &[0]),
        line(5, &[0]),
        line(6, &[0]),
    ];
    let refused: String = [5, 5, 4, 8, 4, 4, 4, 6]
        .map(|number| format!("refused {number}\n"))
        .concat();
    let listed = format!("{HEAD}\n     0     0     0     0         0\n");
    assert_eq!(printed(&script.concat()), refused + &listed);
}

#[test]
fn a_listing_goes_down_the_levels_and_changes_nothing() {
    let script = [
        format_line(),
        line(2, &[10, 20]),
        line(2, &[15]),
        line(2, &[100, 102, 104, 106]),
        line(6, &[0]),
        line(6, &[0]),
    ];
    let listed = [
        HEAD,
        "     0    15     0     0        64",
        "     0   100     6     4        78",
        "     1    10    10    20        -1",
        "",
    ]
    .join("\n");
    assert_eq!(printed(&script.concat()), listed.repeat(2));
}
