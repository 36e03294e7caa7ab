//! The example in the repository's README is the first of this crate's own,
//! which is run.

const README: &str = include_str!("../../../README.md");
const CRATE: &str = include_str!("../src/lib.rs");

#[test]
fn same_example() {
    let mut blocks = CRATE.split("//! ```\n");
    let example = blocks.nth(1).expect("an example");
    let lines = example.lines().map(|line| {
        let line = line
            .strip_prefix("//!")
            .expect("a line of the crate's page");
        format!("{}\n", line.strip_prefix(' ').unwrap_or(line))
    });
    let example: String = lines.collect();
    assert!(README.contains(&format!("\n```rust\n{example}```\n")));
}
