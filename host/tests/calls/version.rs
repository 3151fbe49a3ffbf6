//! The version, the layout and the words of the refusals: the crate's, the header's and the library's are the same.

use committer::{LAYOUT, Refusal, VERSION, library_version, sys};

/// The number that the header gives a name.
fn said(name: &str) -> u32 {
    let define = format!("#define COMMITTER_{name} ");
    let mut lines = include_str!("../../../include/committer.h").lines();
    lines.find_map(|line| line.strip_prefix(&define)).expect("the header has it").parse().expect("a number")
}

#[test]
fn one_version() {
    assert_eq!(library_version(), VERSION);
    let header = ["VERSION_MAJOR", "VERSION_MINOR", "VERSION_PATCH"].map(said);
    assert_eq!([VERSION.major, VERSION.minor, VERSION.patch], header);
    assert_eq!(VERSION.to_string(), env!("CARGO_PKG_VERSION"));
}

#[test]
fn one_layout() {
    assert_eq!([sys::committer_layout_2(), said("LAYOUT")], [LAYOUT; 2]);
}

/// `check.sh` compares what the C function says with the same file.
#[test]
fn refusals_in_the_words_of_the_header() {
    let words = |number| match Refusal::of(number, 0) {
        Some(refusal) => refusal.text(),
        None if number == 0 => "not refused",
        None => "not the number of a refusal",
    };
    let lines: String = (0..=40).map(|number| format!("{number} {}\n", words(number))).collect();
    assert_eq!(lines, include_str!("../../ctest/refusals.txt"));
}
