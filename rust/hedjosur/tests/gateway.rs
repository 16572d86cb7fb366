//! The worked driver in Rust, and what README.md shows of both; the driver in C is
//! run with the other C programs.

#[path = "../examples/gateway.rs"]
mod gateway;

#[test]
fn the_gateway_reads_back_what_it_wrote() {
    gateway::main().expect("no call is refused for good");
}

/// The blocks of a language in README.md stand, but for their indentation, in the
/// example.
#[test]
fn readme_shows_the_examples() {
    let readme = include_str!("../../../README.md");
    for (language, example) in [
        ("```rust\n", include_str!("../examples/gateway.rs")),
        ("```c\n", include_str!("../examples/gateway.c")),
    ] {
        let flat = |text: &str| Vec::from_iter(text.lines().map(str::trim)).join("\n");
        let blocks = readme.split(language).skip(1);
        let blocks = Vec::from_iter(blocks.map(|rest| rest.split("```").next().unwrap_or(rest)));
        assert_eq!(blocks.len(), 1);
        assert!(flat(example).contains(&flat(blocks[0])), "{}", blocks[0]);
    }
}
