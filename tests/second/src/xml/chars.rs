//! Which bytes are what: blanks, the bytes of names, and the UTF-8 form of a Char.

use std::ops::RangeInclusive;

/// [3] S ::= (#x20 | #x9 | #xD | #xA)+
pub fn is_blank(byte: u8) -> bool {
    b"\x20\x09\x0d\x0a".contains(&byte)
}

/// [4] NameStartChar, its ASCII part
pub fn begins_name(byte: u8) -> bool {
    byte.is_ascii_alphabetic() || b":_".contains(&byte)
}

/// [4a] NameChar, its ASCII part
pub fn continues_name(byte: u8) -> bool {
    begins_name(byte) || byte.is_ascii_digit() || b"-.".contains(&byte)
}

/// [5] Name ::= NameStartChar (NameChar)*, of any length
pub fn is_name(bytes: &[u8]) -> bool {
    bytes.first().is_some_and(|first| begins_name(*first)) && bytes.iter().all(|byte| continues_name(*byte))
}

/// [2] Char ::= #x9 | #xA | #xD | [#x20-#xD7FF] | [#xE000-#xFFFD] | [#x10000-#x10FFFF]
const CHARS: [RangeInclusive<u32>; 6] =
    [0x9..=0x9, 0xa..=0xa, 0xd..=0xd, 0x20..=0xd7ff, 0xe000..=0xfffd, 0x1_0000..=0x10_ffff];
/// The code points whose UTF-8 form has one byte, two, three and four: any other form is overlong.
const FORMS: [RangeInclusive<u32>; 4] = [0x0..=0x7f, 0x80..=0x7ff, 0x800..=0xffff, 0x1_0000..=0x10_ffff];

/// What some bytes are to the UTF-8 form of a Char.
#[derive(Clone, Copy, Debug, PartialEq, Eq)]
pub enum Spelled {
    Whole,
    /// More bytes are to come.
    Begun,
    /// No such form begins with them.
    Not,
}

/// By the bits of the bytes and the code points that they leave, and not by Unicode's table 3-7, which follows from them.
pub fn spelled(bytes: &[u8]) -> Spelled {
    let Some((length, bits)) = bytes.split_first().and_then(|(lead, others)| bits(*lead, others)) else {
        return Spelled::Not;
    };
    let missing = 6 * (length - bytes.len());
    let (least, most) = (bits << missing, ((bits + 1) << missing) - 1);
    let form = &FORMS[length - 1];
    let (least, most) = (least.max(*form.start()), most.min(*form.end()));
    match CHARS.iter().any(|chars| least.max(*chars.start()) <= most.min(*chars.end())) {
        true if missing == 0 => Spelled::Whole,
        true => Spelled::Begun,
        false => Spelled::Not,
    }
}

/// How many bytes a form has that begins with this one, and the bits of a code point that it and the others say; nothing if
/// there is no such form.
fn bits(lead: u8, others: &[u8]) -> Option<(usize, u32)> {
    let length = match lead.leading_ones() {
        0 => 1,
        ones @ 2..=4 => ones as usize,
        _ => return None,
    };
    if others.len() >= length {
        return None;
    }
    let first = lead & 0x7f >> lead.leading_ones();
    let next = |bits: u32, byte: &u8| (byte >> 6 == 0b10).then_some(bits << 6 | u32::from(byte & 0x3f));
    Some((length, others.iter().try_fold(u32::from(first), next)?))
}
