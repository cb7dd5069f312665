//! The constants of this crate, the library's version and include/curiumtoad.h say the same.

use curiumtoad::{version, LINE, ROW, SCRATCH, TEXT, VERSION};

/// The number that the header defines for a name.
fn defined(name: &str) -> usize {
    let path = concat!(env!("CARGO_MANIFEST_DIR"), "/../../include/curiumtoad.h");
    let header = std::fs::read_to_string(path).expect("the header is there");
    let values: Vec<usize> = header
        .lines()
        .filter_map(|line| line.strip_prefix("#define ")?.strip_prefix(name)?.strip_prefix(' '))
        .map(|rest| rest.split(' ').next().and_then(|word| word.parse().ok()).expect("a number"))
        .collect();
    assert_eq!(values.len(), 1, "{name} is defined once");
    values[0]
}

#[test]
fn one_version() {
    assert_eq!(version(), VERSION);
    assert_eq!(defined("CURIUMTOAD_VERSION"), VERSION as usize);
}

#[test]
fn the_same_sizes() {
    assert_eq!(defined("CURIUMTOAD_SCRATCH_BYTES"), SCRATCH);
    assert_eq!(defined("CURIUMTOAD_ROW_BYTES"), ROW);
    assert_eq!(defined("CURIUMTOAD_TEXT_BYTES"), TEXT);
    assert_eq!(defined("CURIUMTOAD_LINE_BYTES"), LINE);
}
