//! Texts that are broken, most of them: documents with bytes changed, and with what docs/XML.md leaves out put into them.

use random::chance::Chance;

const MARKUP: &[u8] = b"<>&;'\"=/!-?[]#";
/// Whole pieces of XML that are left out, or that belong elsewhere. Most of them W3C's grammar has inside an element.
const LEFT_OUT: [&str; 22] = [
    "<!DOCTYPE a>",
    "<!DOCTYPE a [<!ENTITY lt 'x'>]>",
    "<?pi x?>",
    "<?pi?>",
    "<?xml version='1.0'?>",
    "<![CDATA[x]]>",
    "<![CDATA[<]]]]>",
    "&#65;",
    "&#x41;",
    "&#0;",
    "&foo;",
    "&lt",
    "<é/>",
    "<aé/>",
    "<a é=''/>",
    "<a bé=''/>",
    "]]>",
    "<!-- -- -->",
    "<!-- --->",
    "<a/>",
    "</a>",
    "x",
];
const DECLARATIONS: [&str; 16] = [
    "<?xml version='1.0' encoding='latin1'?>",
    "<?xml version='1.0' encoding=\"ISO-8859-1\"?>",
    "<?xml version='1.0' encoding='US-ASCII'?>",
    "<?xml version='1.0' encoding='UTF8'?>",
    "<?xml version='1.0' encoding='UTF-16'?>",
    "<?xml version='1.0' encoding=''?>",
    "<?xml version='1.1'?>",
    "<?xml version='1.5' encoding='UTF-8'?>",
    "<?xml version='2.0'?>",
    "<?xml version='1.'?>",
    "<?xml encoding='UTF-8'?>",
    "<?xml version='1.0' standalone='yes' encoding='UTF-8'?>",
    "<?xml version='1.0' standalone='maybe'?>",
    "<?xml version='1.0'encoding='UTF-8'?>",
    "<?xml version='1.0' encoding='UTF-8'standalone='no'?>",
    "<?XML version='1.0'?>",
];

/// What is done to a text.
#[derive(Clone, Copy, Debug, PartialEq, Eq, Hash, PartialOrd, Ord)]
pub enum Damage {
    Dropped,
    Doubled,
    Swapped,
    Replaced,
    Inserted,
    CutOff,
    Grafted,
    LeftOut,
    Declared,
    /// In UTF-16, with its mark or without.
    Encoded,
}

impl Damage {
    pub const ALL: [Damage; 10] = [
        Damage::Dropped,
        Damage::Doubled,
        Damage::Swapped,
        Damage::Replaced,
        Damage::Inserted,
        Damage::CutOff,
        Damage::Grafted,
        Damage::LeftOut,
        Damage::Declared,
        Damage::Encoded,
    ];

    /// The text with this done to it; `other` is what pieces are taken from.
    pub fn done(self, chance: &mut Chance, text: &[u8], other: &[u8]) -> Vec<u8> {
        let place = place(chance, text);
        let least = if self == Damage::Swapped { 2 } else { 1 };
        let some = place..text.len().min(place + least.max(*chance.pick(&[1, 1, 1, 2, 8])));
        let around = |middle: &[u8]| [&text[..some.start], middle, &text[some.end..]].concat();
        match self {
            Damage::Dropped => around(b""),
            Damage::Doubled => around(&text[some.clone()].repeat(2)),
            Damage::Swapped => around(&text[some.clone()].iter().rev().copied().collect::<Vec<_>>()),
            Damage::Replaced => around(&[byte(chance)]),
            Damage::Inserted => put_in(text, place, &[byte(chance)]),
            Damage::CutOff => text[..place].to_vec(),
            Damage::Grafted => put_in(text, place, piece(chance, other)),
            Damage::LeftOut => left_out(chance, text),
            Damage::Declared => declared(chance, text),
            Damage::Encoded => encoded(chance, text),
        }
    }
}

/// A place in the text, or its end; mostly one beside markup.
fn place(chance: &mut Chance, text: &[u8]) -> usize {
    let any = chance.between(0, text.len());
    if chance.percent(40) {
        return any;
    }
    let next = text[any..].iter().position(|byte| MARKUP.contains(byte)).map_or(any, |further| any + further);
    text.len().min(next + chance.between(0, 1))
}

/// A byte, mostly one of markup, a control character or one beyond ASCII.
fn byte(chance: &mut Chance) -> u8 {
    match chance.between(0, 9) {
        0..=4 => *chance.pick(MARKUP),
        5 => chance.between(0, 31) as u8,
        6..=7 => chance.between(128, 255) as u8,
        8 => *chance.pick(b"aZ_:0-. \n\x7fxD"),
        _ => chance.byte(),
    }
}

fn put_in(text: &[u8], place: usize, piece: &[u8]) -> Vec<u8> {
    [&text[..place], piece, &text[place..]].concat()
}

fn piece<'o>(chance: &mut Chance, other: &'o [u8]) -> &'o [u8] {
    let start = place(chance, other);
    let end = other.len().min(start + chance.between(1, 40));
    &other[start..end]
}

/// Mostly after a `>`, so between tags: what is left out is well-formed there.
fn left_out(chance: &mut Chance, text: &[u8]) -> Vec<u8> {
    let ends: Vec<usize> =
        (0..=text.len()).filter(|end| text[..*end].last().is_none_or(|last| *last == b'>')).collect();
    let place = match chance.between(0, 9) {
        0 => 0,
        1 => place(chance, text),
        _ => *chance.pick(&ends),
    };
    put_in(text, place, chance.pick(&LEFT_OUT).as_bytes())
}

fn encoded(chance: &mut Chance, text: &[u8]) -> Vec<u8> {
    let spell = if chance.percent(50) { u16::to_le_bytes } else { u16::to_be_bytes };
    let text = String::from_utf8_lossy(text);
    let bare = text.trim_start_matches('\u{feff}');
    let mark = if chance.percent(70) { "\u{feff}" } else { "" };
    mark.encode_utf16().chain(bare.encode_utf16()).flat_map(spell).collect()
}

/// The text with another declaration at its start.
fn declared(chance: &mut Chance, text: &[u8]) -> Vec<u8> {
    let bare = text.strip_prefix(b"\xef\xbb\xbf").unwrap_or(text);
    let end = bare.windows(2).position(|two| two == b"?>").filter(|_| bare.starts_with(b"<?xml"));
    let rest = end.map_or(bare, |end| &bare[end + 2..]);
    [chance.pick(&DECLARATIONS).as_bytes(), rest].concat()
}
