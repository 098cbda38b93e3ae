//! Every new line of `docs/PORTING.md` is a line of an example in the crate's documentation.

use std::collections::HashSet;

const PORTING: &str = include_str!("../../../docs/PORTING.md");
const SOURCES: [&str; 9] = [
    include_str!("../src/decaying_acceptance.rs"),
    include_str!("../src/fait_accompli.rs"),
    include_str!("../src/partition.rs"),
    include_str!("../src/rotor.rs"),
    include_str!("../src/stake_weighted.rs"),
    include_str!("../src/turbine.rs"),
    include_str!("../src/types.rs"),
    include_str!("../src/weighted_shuffle.rs"),
    include_str!("../src/words.rs"),
];

#[test]
fn new_lines_are_lines_of_examples() {
    let examples: HashSet<_> = SOURCES
        .iter()
        .flat_map(|source| source.split("/// ```").skip(1).step_by(2))
        .flat_map(|example| example.lines())
        .filter_map(|line| line.strip_prefix("/// "))
        .collect();
    let new_lines: Vec<_> = PORTING
        .lines()
        .filter_map(|line| line.strip_prefix('+'))
        .collect();
    assert!(!new_lines.is_empty());
    for line in new_lines {
        assert!(examples.contains(line), "in no example: {line}");
    }
}
