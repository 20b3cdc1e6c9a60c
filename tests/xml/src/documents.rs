//! Documents of the grammar in docs/XML.md, with everything that it has, and some that go past one of its limits.

use crate::words::{long_name, name, spelled};
use random::chance::Chance;
use second::records::Event;
use second::xml::{MOST_ATTRIBUTES, MOST_NAME_BYTES};
use std::collections::HashMap;

const BLANKS: [&str; 7] = [" ", "\t", "\n", "\r", "\r\n", "  ", " \n\t "];
const ENTITIES: [&str; 5] = ["&lt;", "&gt;", "&amp;", "&apos;", "&quot;"];
/// The first and the last Char of every row of Unicode's table 3-7, and some that a catalogue has.
const BEYOND: &str =
    "\u{80}\u{7ff}\u{800}\u{fff}\u{1000}\u{cfff}\u{d000}\u{d7ff}\u{e000}\u{fffd}\u{10000}\u{3ffff}\u{40000}\
    \u{fffff}\u{100000}\u{10ffff}\u{85}\u{2028}\u{feff}\u{fdd0}\u{1fffe}éüß♭♯𝄞";
const WORDS: [&str; 10] = ["x", "Op. 27", "c#", "1828", "Allegro ma non troppo", "a;b", "#1", "%", "\x7f", "?"];
/// What character data may have and looks like markup.
const DATA: [&str; 12] = ["]", "]]", "]]&gt;", "]>", ">", "-->", "--", "/>", "?>", "'", "\"", "="];
/// The same of a comment, and of a value without its quotes.
const REMARKS: [&str; 14] = ["-", "- ", "->", "<", "&", "<a>", "</a>", "<!-", "<?", "]]>", "&#0;", "'", "\"", "&lt;"];
const VALUES: [&str; 10] = [">", "]]>", "-->", "/>", "?>", "=", "]", "--", "'", "\""];

/// A limit that one tag of a document goes up to, or past.
#[derive(Clone, Copy, Debug, PartialEq, Eq)]
pub enum Edge {
    /// A name of 63 to 65 bytes, of the element or of an attribute.
    LongElement,
    LongAttribute,
    /// From 15 to 17 attributes, with names of 64 bytes in some cases.
    ManyAttributes,
    /// An attribute that is named twice; the name has 64 bytes in some cases, or goes on after 64 in which it is the same.
    Twice,
}

impl Edge {
    pub const ALL: [Edge; 4] = [Edge::LongElement, Edge::LongAttribute, Edge::ManyAttributes, Edge::Twice];
}

/// How readily each thing comes, in a hundred.
struct Taste {
    blanks: u64,
    data: u64,
    remarks: u64,
    attributes: u64,
    beyond: u64,
    empty: u64,
}

impl Taste {
    fn any(chance: &mut Chance) -> Taste {
        let mut share = |shares: &[u64]| *chance.pick(shares);
        Taste {
            blanks: share(&[0, 10, 60]),
            data: share(&[0, 30, 80]),
            remarks: share(&[0, 5, 30]),
            attributes: share(&[0, 20, 60]),
            beyond: share(&[0, 10, 50]),
            empty: share(&[0, 50, 100]),
        }
    }
}

/// A document with the elements that these events open and close, and one tag at the edge.
pub fn document(chance: &mut Chance, events: &[Event], edge: Option<Edge>) -> Vec<u8> {
    let taste = Taste::any(chance);
    let opens = events.iter().filter(|event| matches!(event, Event::Open(_))).count();
    let edge = edge.map(|edge| (chance.between(1, opens), edge));
    let mut writer = Writer { chance, taste, names: HashMap::new(), open: Vec::new(), text: Vec::new() };
    writer.prolog();
    writer.elements(events, edge);
    writer.misc();
    writer.text
}

struct Writer<'c> {
    chance: &'c mut Chance,
    taste: Taste,
    /// The names that the numbers in the events have got.
    names: HashMap<u16, Vec<u8>>,
    /// The names of the open elements, the innermost last.
    open: Vec<Vec<u8>>,
    text: Vec<u8>,
}

impl Writer<'_> {
    fn put(&mut self, piece: impl AsRef<[u8]>) {
        self.text.extend(piece.as_ref());
    }

    fn blank(&mut self) {
        let blank = *self.chance.pick(&BLANKS);
        self.put(blank);
    }

    fn maybe_blank(&mut self) {
        if self.chance.percent(self.taste.blanks) {
            self.blank();
        }
    }

    fn prolog(&mut self) {
        if self.chance.percent(20) {
            self.put("\u{feff}");
        }
        if self.chance.percent(60) {
            self.declaration();
        }
        self.misc();
    }

    fn declaration(&mut self) {
        self.put("<?xml");
        self.setting("version", "1.0");
        if self.chance.percent(50) {
            let encoding = *self.chance.pick(&["UTF-8", "utf-8", "Utf-8", "uTF-8", "utF-8"]);
            self.setting("encoding", encoding);
        }
        if self.chance.percent(30) {
            let standalone = *self.chance.pick(&["yes", "no"]);
            self.setting("standalone", standalone);
        }
        self.maybe_blank();
        self.put("?>");
    }

    /// A part of the declaration.
    fn setting(&mut self, name: &str, value: &str) {
        self.blank();
        self.put(name);
        self.eq();
        let quote = *self.chance.pick(&["'", "\""]);
        self.put([quote, value, quote].concat());
    }

    fn eq(&mut self) {
        self.maybe_blank();
        self.put("=");
        self.maybe_blank();
    }

    fn misc(&mut self) {
        self.maybe_blank();
        while self.chance.percent(self.taste.remarks) {
            self.comment();
            self.maybe_blank();
        }
    }

    fn comment(&mut self) {
        let mut inside = String::new();
        for _ in 0..self.chance.between(0, 4) {
            let piece = self.piece(&REMARKS);
            if inside.ends_with('-') && piece.starts_with('-') {
                inside.push('x');
            }
            inside += &piece;
        }
        let end = if inside.ends_with('-') { " -->" } else { "-->" };
        self.put(["<!--", &inside, end].concat());
    }

    /// A piece of character data, of a comment or of a value.
    fn piece(&mut self, special: &[&str]) -> String {
        if self.chance.percent(self.taste.beyond) {
            return self.beyond().into();
        }
        match self.chance.between(0, 5) {
            0..=2 => self.chance.pick(special).to_string(),
            3 => self.chance.pick(&BLANKS).to_string(),
            _ => self.chance.pick(&WORDS).to_string(),
        }
    }

    fn beyond(&mut self) -> char {
        if self.chance.percent(80) {
            return *self.chance.pick(&BEYOND.chars().collect::<Vec<_>>());
        }
        let any = self.chance.between(0x80, 0x10_ffff) as u32;
        char::from_u32(any).filter(|any| !"\u{fffe}\u{ffff}".contains(*any)).unwrap_or('é')
    }

    fn elements(&mut self, events: &[Event], edge: Option<(usize, Edge)>) {
        let (mut opened, mut place) = (0, 0);
        while place < events.len() {
            match events[place] {
                Event::Open(number) => {
                    opened += 1;
                    let edge = edge.filter(|(at, _)| *at == opened).map(|(_, edge)| edge);
                    let closes = events.get(place + 1) == Some(&Event::Close(number));
                    let is_empty = closes && self.chance.percent(self.taste.empty);
                    self.tag(number, is_empty, edge);
                    place += usize::from(is_empty);
                }
                Event::Close(_) => self.end_tag(),
            }
            place += 1;
            if place < events.len() {
                self.content();
            }
        }
    }

    /// Character data, references and comments.
    fn content(&mut self) {
        while self.chance.percent(self.taste.data) {
            match self.chance.percent(25) {
                true => {
                    let entity = *self.chance.pick(&ENTITIES);
                    self.put(entity);
                }
                false => {
                    let piece = self.piece(&DATA);
                    self.data(&piece);
                }
            }
        }
        if self.chance.percent(self.taste.remarks) {
            self.comment();
        }
    }

    /// Character data, kept from spelling `]]>` with what stands before it.
    fn data(&mut self, piece: &str) {
        let before = &self.text[self.text.len() - 2..];
        if [before, piece.as_bytes()].concat().windows(3).any(|three| three == b"]]>") {
            self.put("x");
        }
        self.put(piece);
    }

    fn tag(&mut self, number: u16, is_empty: bool, edge: Option<Edge>) {
        let name = match edge {
            Some(Edge::LongElement) => about_64(self.chance),
            _ => self.names.entry(number).or_insert_with(|| name(self.chance)).clone(),
        };
        self.put("<");
        self.put(&name);
        for name in self.attributes(edge) {
            self.attribute(&name);
        }
        self.maybe_blank();
        self.put(if is_empty { "/>" } else { ">" });
        if !is_empty {
            self.open.push(name);
        }
    }

    fn end_tag(&mut self) {
        let name = self.open.pop().expect("an element is open");
        self.put("</");
        self.put(name);
        self.maybe_blank();
        self.put(">");
    }

    /// The names of a tag's attributes.
    fn attributes(&mut self, edge: Option<Edge>) -> Vec<Vec<u8>> {
        let chance = &mut *self.chance;
        match edge {
            Some(Edge::LongAttribute) => {
                let mut names = different(chance, 2, name);
                let place = chance.between(0, 2);
                names.insert(place, about_64(chance));
                names
            }
            Some(Edge::ManyAttributes) => {
                let many = chance.between(MOST_ATTRIBUTES - 1, MOST_ATTRIBUTES + 1);
                let spell =
                    if chance.percent(20) { |chance: &mut Chance| spelled(chance, MOST_NAME_BYTES) } else { name };
                different(chance, many, spell)
            }
            Some(Edge::Twice) => {
                let many = chance.between(1, MOST_ATTRIBUTES - 1);
                let spell = if chance.percent(50) { long_name } else { name };
                let mut names = different(chance, many, spell);
                let again = chance.pick(&names).clone();
                let more = if chance.percent(20) { "a" } else { "" };
                names.push([&again, more.as_bytes()].concat());
                names
            }
            _ if chance.percent(self.taste.attributes) => {
                let most = *chance.pick(&[1, 3, MOST_ATTRIBUTES]);
                let many = chance.between(1, most);
                different(chance, many, name)
            }
            _ => vec![],
        }
    }

    fn attribute(&mut self, name: &[u8]) {
        self.blank();
        self.put(name);
        self.eq();
        let quote = *self.chance.pick(&["'", "\""]);
        self.put(quote);
        for _ in 0..self.chance.between(0, 3) {
            let piece = match self.chance.percent(25) {
                true => self.chance.pick(&ENTITIES).to_string(),
                false => self.piece(&VALUES),
            };
            self.put(piece.replace(quote, "&quot;"));
        }
        self.put(quote);
    }
}

/// A name about as long as one may be, or a byte longer.
fn about_64(chance: &mut Chance) -> Vec<u8> {
    let bytes = chance.between(MOST_NAME_BYTES - 1, MOST_NAME_BYTES + 1);
    spelled(chance, bytes)
}

/// So many names, none of them twice.
fn different(chance: &mut Chance, many: usize, spell: fn(&mut Chance) -> Vec<u8>) -> Vec<Vec<u8>> {
    let mut names: Vec<Vec<u8>> = Vec::new();
    while names.len() < many {
        let name = spell(chance);
        if !names.contains(&name) {
            names.push(name);
        }
    }
    names
}
