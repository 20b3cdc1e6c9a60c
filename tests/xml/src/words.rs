//! The names in the texts: words that come again and again, so that most are in the list, and others of any spelling.

use random::chance::Chance;
use second::xml::MOST_NAME_BYTES;

/// Of these every third is not in the list, so that documents have names that it has not.
const WORDS: [&str; 36] = [
    "a",
    "b",
    "c",
    "aa",
    "ab",
    "A",
    ":",
    "_",
    ":a",
    "a:b",
    "a:b:c",
    "a-",
    "a.",
    "a1",
    "_-.0:",
    "x",
    "xm",
    "xml",
    "xmlns",
    "xml:lang",
    "xml:space",
    "xmlns:a",
    "catalogue",
    "entry",
    "entries",
    "theme",
    "incipit",
    "key",
    "key-signature",
    "composer",
    "title",
    "year.of.work",
    "opus_number",
    "note",
    "ns:note",
    "D",
];
const FIRST: &[u8] = b"abcxyzABCXYZ:_";
const NEXT: &[u8] = b"abcxyzABCXYZ:_-.0123456789";
/// How many of the names of 63 and 64 bytes the list has.
const LONG: u8 = 3;

/// A name of so many bytes in the list, one of those that differ in their last byte alone.
fn long(bytes: usize, last: u8) -> Vec<u8> {
    let mut name = b"a-long.name_of:".repeat(5)[..bytes].to_vec();
    name[bytes - 1] = b'0' + last;
    name
}

/// The names that readers look up: some stand there twice, and the last line has no line feed.
pub fn list() -> Vec<u8> {
    let words = WORDS.iter().enumerate().filter(|(place, _)| place % 3 != 2).map(|(_, word)| word.as_bytes().to_vec());
    let long = (0..LONG).flat_map(|last| [long(MOST_NAME_BYTES - 1, last), long(MOST_NAME_BYTES, last)]);
    let again = ["a", "theme", "catalogue", "a"].map(|word| word.as_bytes().to_vec());
    words.chain(again).chain(long).collect::<Vec<_>>().join(&b'\n')
}

/// A name, mostly a word.
pub fn name(chance: &mut Chance) -> Vec<u8> {
    match chance.between(0, 19) {
        0 => {
            let bytes = chance.between(1, MOST_NAME_BYTES);
            spelled(chance, bytes)
        }
        1..=3 => {
            let bytes = chance.between(1, 4);
            spelled(chance, bytes)
        }
        4 => long_name(chance),
        _ => chance.pick(&WORDS).as_bytes().to_vec(),
    }
}

/// A name of 63 or 64 bytes, mostly one that is in the list or differs from one in its last byte.
pub fn long_name(chance: &mut Chance) -> Vec<u8> {
    let bytes = chance.between(MOST_NAME_BYTES - 1, MOST_NAME_BYTES);
    match chance.percent(80) {
        true => long(bytes, chance.between(0, usize::from(2 * LONG)) as u8),
        false => spelled(chance, bytes),
    }
}

/// A name of so many bytes.
pub fn spelled(chance: &mut Chance, bytes: usize) -> Vec<u8> {
    (0..bytes).map(|place| *chance.pick(if place == 0 { FIRST } else { NEXT })).collect()
}
