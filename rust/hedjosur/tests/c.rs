//! `include/hedjosur.h`, from C and C++ programs that are compiled and linked here.

use std::path::{Path, PathBuf};
use std::process::{Command, Output};

use hedjosur::{Refusal, LISTING_LEN, WHY_LEN};

#[allow(dead_code)]
#[path = "../examples/recorder.rs"]
mod recorder;

const C99: &[&str] = &["cc", "-std=c99"];
const C11: &[&str] = &["cc", "-std=c11"];
const CPP: &[&str] = &["c++", "-std=c++11", "-x", "c++"];

fn here(file: &str) -> PathBuf {
    Path::new(env!("CARGO_MANIFEST_DIR")).join(file)
}

/// Compiles a program with all warnings as errors; answers what the compiler said
/// and where the program is, `None` where there is no such compiler.
fn compiled(compiler: &[&str], options: &[&str], source: &str) -> Option<(Output, PathBuf)> {
    let name = format!("{}{}{}", compiler.concat(), options.concat(), source);
    let name = name.replace(|c: char| !c.is_ascii_alphanumeric(), "_");
    let program = Path::new(env!("CARGO_TARGET_TMPDIR")).join(name);
    let output = Command::new(compiler[0])
        .args(&compiler[1..])
        .args(["-O1", "-pedantic", "-Wall", "-Wextra", "-Werror"])
        .args(options)
        .arg("-I")
        .arg(here("include"))
        .arg(here(source))
        .args(["-x", "none", env!("HEDJOSUR_LIBRARY"), "-o"])
        .arg(&program)
        .output();
    output.ok().map(|output| (output, program))
}

/// Compiles and runs a program, which must end well, and answers what it printed.
fn ran(compiler: &[&str], options: &[&str], source: &str) -> String {
    let (output, program) = compiled(compiler, options, source)
        .unwrap_or_else(|| panic!("this test needs a compiler, as `{}`", compiler[0]));
    let messages = String::from_utf8_lossy(&output.stderr);
    assert!(
        output.status.success(),
        "{source}, {compiler:?}:\n{messages}"
    );
    let ended = Command::new(&program).output().expect("the program starts");
    let printed = String::from_utf8_lossy(&ended.stdout);
    let difference = String::from_utf8_lossy(&ended.stderr);
    assert!(ended.status.success(), "{source}: {printed}{difference}");
    printed.into_owned()
}

#[test]
fn a_c_program_makes_the_same_calls() {
    ran(C99, &[], "tests/script.c");
}

#[test]
fn the_header_in_c() {
    ran(C99, &[], "tests/header.c");
    ran(C11, &["-Wconversion", "-Wshadow"], "tests/header.c");
}

/// Where there is a C++ compiler.
#[test]
fn the_header_in_cpp() {
    match Command::new(CPP[0]).arg("--version").output() {
        Ok(_) => drop(ran(CPP, &[], "tests/header.c")),
        Err(_) => println!("there is no `{}`", CPP[0]),
    }
}

#[test]
fn a_refusal_that_is_not_looked_at_is_a_warning() {
    let options = ["-DIGNORE_A_REFUSAL"];
    let (output, _) = compiled(C99, &options, "tests/header.c").expect("a C compiler");
    assert!(!output.status.success());
    let messages = String::from_utf8_lossy(&output.stderr);
    assert!(messages.contains("warn_unused_result"), "{messages}");
}

/// As a compiler for another processor would.
#[test]
fn another_processor_is_told_so() {
    let options = ["-U__x86_64__", "-ffreestanding", "-fsyntax-only"];
    let (output, _) = compiled(C99, &options, "tests/freestanding.c").expect("a C compiler");
    let messages = String::from_utf8_lossy(&output.stderr);
    assert!(!output.status.success());
    assert!(messages.contains("code for x86-64 Linux"), "{messages}");
}

#[test]
fn the_archive_needs_three_functions() {
    let options = ["-ffreestanding", "-nostdlib", "-static"];
    let (output, _) = compiled(C99, &options, "tests/freestanding.c").expect("a C compiler");
    let messages = String::from_utf8_lossy(&output.stderr);
    assert!(output.status.success(), "{messages}");
}

/// Words, version and lengths that both languages have are the same.
#[test]
fn the_header_says_what_the_crate_says() {
    let header = std::fs::read_to_string(here("include/hedjosur.h")).expect("the header");
    for refusal in Refusal::ALL {
        let words = refusal.to_string();
        let (_, words) = words.split_once(": ").expect("a number and words");
        assert!(header.contains(&format!("return \"{words}\";")), "{words}");
    }
    let version = format!("#define HEDJOSUR_VERSION \"{}\"\n", hedjosur::VERSION);
    assert!(header.contains(&version));
    for (name, length) in [("LISTING", LISTING_LEN), ("WHY", WHY_LEN)] {
        assert!(header.contains(&format!("#define HEDJOSUR_{name}_LEN {length}\n")));
    }
}

#[test]
fn the_gateway_in_c() {
    let printed = ran(C99, &[], "examples/gateway.c");
    let lines = Vec::from_iter(printed.lines());
    let told = "logical page 17: level 2: record 0..113: member";
    let refused = "logical page 128: refused 4: there is no such logical page or group";
    assert_eq!((lines.len(), lines[2], lines[3]), (5, told, refused));
}

/// Line by line what the recorder in Rust says.
#[test]
fn the_recorder_in_c() {
    let said = recorder::ten_years().expect("no call is refused for good");
    assert_eq!(ran(C99, &[], "examples/recorder.c"), said);
    assert_eq!(said.lines().count(), 11);
}

/// Bound at the start, so that a call doesn't pay for the linker.
#[test]
fn the_stack_of_each_call() {
    let printed = ran(C11, &["-pthread", "-Wl,-z,now"], "tests/stack.c");
    println!("bytes of stack, measured and allowed:\n{printed}");
    assert_eq!(printed.lines().count(), 15);
}
