//! A refusal comes at the first byte with which no text that is read goes on: whatever comes after it changes nothing, and the
//! text before it can be made a whole document.

use second::xml::{read, Event, Reading, Refusal, MOST_NAME_BYTES};
use xml::cases::damaged;
use xml::stems;

/// What ends the declaration, a comment, a tag, a value or a reference, each from any place in it.
const ENDS: [&str; 14] = [
    "\u{feff}",
    "<?xml version='1.0' encoding='utf-8' standalone='yes'?>",
    "<?xml version=\"1.0\" encoding=\"utf-8\" standalone=\"no\"?>",
    "<?xml version='1.0' encoding='utf-8' standalone='no'?>",
    "<?xml version=\"1.0\" encoding=\"utf-8\" standalone=\"yes\"?>",
    "<!--x-->",
    "x=''>",
    "\">",
    "/>",
    "&lt;",
    "&gt;",
    "&amp;",
    "&apos;",
    "&quot;",
];
/// What ends the UTF-8 form of a Char.
const FORMS: [&[u8]; 6] = [b"", b"\x80", b"\x80\x80", b"\xa0\x80", b"\x80\x80\x80", b"\x90\x80\x80"];
const VALUES: [&[u8]; 3] = [b"", b"'>", b"\">"];

/// The names of the elements that are open after these events, the innermost last.
fn open<'t>(events: &[Event<'t>]) -> Vec<&'t [u8]> {
    let mut open = Vec::new();
    for event in events {
        match event {
            Event::Open(name) => open.push(*name),
            Event::Close(_) => drop(open.pop()),
            Event::Comment => (),
        }
    }
    open
}

/// Every end of these bytes, the whole first.
fn ends_of(bytes: &[u8]) -> impl Iterator<Item = Vec<u8>> + '_ {
    (0..=bytes.len()).map(|start| bytes[start..].to_vec())
}

/// What may end a thing that is begun, the innermost open element having this name.
fn ends(innermost: &[u8]) -> Vec<Vec<u8>> {
    let forms = FORMS.iter().flat_map(|form| [b"" as &[u8], b"-->", b"'>", b"\">"].map(|end| [form, end].concat()));
    let references = |end: &[u8]| VALUES.map(|value| [end, value].concat());
    let things = ENDS.iter().flat_map(|thing| ends_of(thing.as_bytes())).flat_map(|end| references(&end));
    forms.chain(things).chain(ends_of(&[b"</", innermost, b">"].concat())).collect()
}

/// The text is whole once this is added, all open elements are closed and, if it has none, there is an element.
fn is_whole_with(text: &[u8], end: &[u8]) -> bool {
    let ended = [text, end].concat();
    let mut more = Vec::new();
    match read(&ended) {
        Reading { refusal: None, .. } => return true,
        Reading { refusal: Some(Refusal { number: 44, .. }), events } if events.is_empty() => more.extend(b"<a/>"),
        Reading { refusal: Some(Refusal { number: 44, .. }), events } => {
            open(&events).iter().rev().for_each(|name| more.extend([b"</", *name, b">"].concat()));
        }
        _ => return false,
    }
    read(&[ended, more].concat()).refusal.is_none()
}

fn goes_on(text: &[u8]) -> bool {
    let events = read(text).events;
    let innermost = open(&events).last().copied().unwrap_or_default();
    ends(innermost).iter().any(|end| is_whole_with(text, end))
}

/// "An attribute's name of 64 bytes that spells an earlier one of its tag can no longer become another name"
fn spells_an_earlier(text: &[u8]) -> bool {
    let tag = text.rsplit(|byte| *byte == b'<').next().unwrap_or_default();
    let Some((before, name)) = tag.split_at_checked(tag.len().saturating_sub(MOST_NAME_BYTES)) else { return false };
    name.len() == MOST_NAME_BYTES && before.windows(MOST_NAME_BYTES).any(|earlier| earlier == name)
}

fn check(text: &[u8]) {
    let Some(Refusal { number, byte }) = read(text).refusal else { return };
    let before = &text[..byte - 1];
    assert!(spells_an_earlier(before) || goes_on(before), "{number} at {byte} comes late in {}", text.escape_ascii());
    if number != 44 {
        for more in ["", ">", "<a/>", "--></a>"] {
            let other = [&text[..byte], more.as_bytes()].concat();
            assert_eq!(read(&other).refusal, Some(Refusal { number, byte }), "of {}", other.escape_ascii());
        }
    }
}

#[test]
fn damaged_documents() {
    damaged(1).take(4_000).for_each(|(_, case)| check(&case.text));
}

#[test]
fn every_byte_after_every_stem() {
    // The text before the last byte is the same for 256 of them.
    stems::texts().step_by(256).chain(stems::texts().step_by(259)).for_each(|text| check(&text));
}
