//! Which bytes the second program's reader of XML text takes for a Char.

use second::xml::chars::{spelled, Spelled};

/// What some bytes are to a Char by Rust's own library, which takes surrogates and overlong forms for no text.
fn by_the_library(bytes: &[u8]) -> Spelled {
    let is_char = |char: char| char >= ' ' && !"\u{fffe}\u{ffff}".contains(char) || "\t\n\r".contains(char);
    match std::str::from_utf8(bytes) {
        Ok(text) if text.chars().count() == 1 && text.chars().all(is_char) => Spelled::Whole,
        Ok(_) => Spelled::Not,
        Err(wrong) if wrong.valid_up_to() == 0 && wrong.error_len().is_none() => Spelled::Begun,
        Err(_) => Spelled::Not,
    }
}

fn compare(bytes: &[u8]) {
    assert_eq!(spelled(bytes), by_the_library(bytes), "of {bytes:02x?}");
}

#[test]
fn of_up_to_3_bytes() {
    for number in 0..1_u32 << 24 {
        let [_, first, second, third] = number.to_be_bytes();
        compare(&[first, second, third]);
        if third == 0 {
            compare(&[first, second]);
        }
        if second == 0 && third == 0 {
            compare(&[first]);
        }
    }
}

#[test]
fn of_4_bytes() {
    let edges = [0x00, 0x7f, 0x80, 0x8f, 0x90, 0x9f, 0xa0, 0xbe, 0xbf, 0xc0, 0xff];
    for first in 0..=255 {
        for second in 0..=255 {
            edges.iter().for_each(|third| edges.iter().for_each(|fourth| compare(&[first, second, *third, *fourth])));
        }
    }
}
