//! The second program's list of names, and the records with their numbers.

use second::xml::names::{lines_of, Names, Refused, MOST_NAMES};
use second::xml::read;

#[test]
fn lines() {
    let lines = |list: &'static str| lines_of(list.as_bytes()).map(<[u8]>::to_vec).collect::<Vec<_>>();
    assert_eq!(lines(""), [""; 0].map(Vec::from));
    assert_eq!(lines("\n"), [""].map(Vec::from));
    assert_eq!(lines("a\nb"), ["a", "b"].map(Vec::from));
    assert_eq!(lines("a\n\nb\n"), ["a", "", "b"].map(Vec::from));
}

#[test]
fn the_first_place_counts() {
    let names = Names::read(b"a\nb\na\nab").expect("all are names");
    assert_eq!(["a", "b", "ab", "c", "A"].map(|name| names.number(name.as_bytes())), [1, 2, 4, 65_534, 65_534]);
}

#[test]
fn records() {
    let names = Names::read(b"r\nd\n").expect("all are names");
    let records = read(b"<r><d/><!--x--><e/></r>").records(&names);
    let expected: Vec<[u8; 8]> = [(1, 1), (1, 2), (2, 2), (1, 65_535), (2, 65_535), (1, 65_534), (2, 65_534), (2, 1)]
        .map(|(kind, name): (u8, u16)| [kind, 0, name.to_be_bytes()[0], name.to_be_bytes()[1], 0, 0, 0, 0])
        .into();
    assert_eq!(records, expected.concat());
}

#[track_caller]
fn refused(list: impl AsRef<[u8]>, number: u8, line: usize) {
    assert_eq!(Names::read(list.as_ref()).err(), Some(Refused { number, line }));
}

#[test]
fn r47_too_many_names() {
    let full = "a\n".repeat(MOST_NAMES);
    assert!(Names::read(full.as_bytes()).is_ok());
    assert!(Names::read(full.trim_end().as_bytes()).is_ok());
    for more in ["a", "a\n", "\n", "0", &"n".repeat(65)] {
        refused(format!("{full}{more}"), 47, 65_534);
    }
    refused(full.replacen("a\na\n", "a\n\n", 1) + "a", 49, 2);
}

#[test]
fn r48_a_name_over_64_bytes() {
    assert!(Names::read("n".repeat(64).as_bytes()).is_ok());
    refused(format!("a\n{}", "n".repeat(65)), 48, 2);
    refused(format!("a\n{}\n0\n", "n".repeat(65)), 48, 2);
}

#[test]
fn r49_no_name() {
    for line in ["", "0", "-a", "a b", "a\r", "\u{e9}", "a\u{e9}", "a\0", " a"] {
        refused(format!("a\n{line}\n"), 49, 2);
    }
    refused(format!("a\n{} ", "n".repeat(65)), 49, 2);
}
