//! XML text by docs/XML.md: the whole text is read by a function for each production, with W3C's number and name.
//!
//! [`read`] gives the events of a text with their names spelled, and its refusal if it has one. [`names`] is the list that the
//! names get their numbers from, [`chars`] says which bytes are what, and [`batch`] reads many texts from one file. The
//! productions stand in `prolog` and `content`; what both have is here.
//!
//! A function stands before what it reads and leaves the reader after it. Where a byte comes that it cannot read, it gives the
//! refusal of that byte, and where the text ends before it is done, refusal 44.

pub mod batch;
pub mod chars;
mod content;
pub mod names;
mod prolog;

use crate::records::{self, record};
use chars::{is_blank, spelled, Spelled};
use names::Names;
use std::fmt::{self, Display, Formatter};

/// "names over 64 bytes"
pub const MOST_NAME_BYTES: usize = 64;
/// "at most 16 attributes on a tag"
pub const MOST_ATTRIBUTES: usize = 16;
/// "an open and a close of 65,535"
pub const COMMENT: u16 = 65_535;

const QUOTES: [&[u8]; 2] = [b"\"", b"'"];

/// What a text has inside its document element, and that itself.
#[derive(Clone, Copy, Debug, PartialEq, Eq)]
pub enum Event<'t> {
    Open(&'t [u8]),
    Close(&'t [u8]),
    Comment,
}

/// A number from 30 to 44, and the byte that it is given at, from 1.
#[derive(Clone, Copy, Debug, PartialEq, Eq)]
pub struct Refusal {
    pub number: u8,
    pub byte: usize,
}

/// What comes of a text: with a refusal, the events are those before it.
#[derive(Clone, Debug, PartialEq, Eq)]
pub struct Reading<'t> {
    pub events: Vec<Event<'t>>,
    pub refusal: Option<Refusal>,
}

impl Reading<'_> {
    /// The event records, end to end.
    pub fn records(&self, names: &Names) -> Vec<u8> {
        let mut bytes = Vec::new();
        for event in &self.events {
            match *event {
                Event::Open(name) => bytes.extend(record(records::Event::Open(names.number(name)))),
                Event::Close(name) => bytes.extend(record(records::Event::Close(names.number(name)))),
                Event::Comment => {
                    bytes.extend(record(records::Event::Open(COMMENT)));
                    bytes.extend(record(records::Event::Close(COMMENT)));
                }
            }
        }
        bytes
    }
}

/// Each event and how the text ends, parted by blanks: `(a (b )b ! )a end`, or `(a (b refused 44 at 7`.
impl Display for Reading<'_> {
    fn fmt(&self, f: &mut Formatter) -> fmt::Result {
        for event in &self.events {
            match event {
                Event::Open(name) => write!(f, "({} ", String::from_utf8_lossy(name))?,
                Event::Close(name) => write!(f, "){} ", String::from_utf8_lossy(name))?,
                Event::Comment => write!(f, "! ")?,
            }
        }
        match self.refusal {
            None => write!(f, "end"),
            Some(Refusal { number, byte }) => write!(f, "refused {number} at {byte}"),
        }
    }
}

pub fn read(text: &[u8]) -> Reading<'_> {
    let mut reader = Reader { text, at: 0, events: Vec::new() };
    let refusal = reader.document().err();
    Reading { events: reader.events, refusal }
}

type Read<T = ()> = Result<T, Refusal>;

struct Reader<'t> {
    text: &'t [u8],
    /// How many bytes are read.
    at: usize,
    events: Vec<Event<'t>>,
}

/// What every production is read with.
impl<'t> Reader<'t> {
    fn rest(&self) -> &'t [u8] {
        &self.text[self.at..]
    }

    fn comes(&self, word: &[u8]) -> bool {
        self.rest().starts_with(word)
    }

    /// The next byte, which is not read by this.
    fn byte(&self) -> Read<u8> {
        self.rest().first().copied().map_or_else(|| self.refuse(44), Ok)
    }

    /// The refusal of the next byte.
    fn refuse<T>(&self, number: u8) -> Read<T> {
        Err(Refusal { number, byte: self.at + 1 })
    }

    /// Reads these bytes; another one gets this refusal.
    fn word(&mut self, word: &[u8], otherwise: u8) -> Read {
        for expected in word {
            if self.byte()? != *expected {
                return self.refuse(otherwise);
            }
            self.at += 1;
        }
        Ok(())
    }

    /// Reads one of these words, none of which begins another; a byte with which none goes on gets this refusal.
    fn one_of(&mut self, words: &[&'t [u8]], otherwise: u8) -> Read<&'t [u8]> {
        let start = self.at;
        loop {
            let begun = &self.text[start..self.at];
            if let Some(word) = words.iter().find(|word| **word == begun) {
                return Ok(word);
            }
            let next = self.byte()?;
            if !words.iter().any(|word| word.starts_with(begun) && word[begun.len()] == next) {
                return self.refuse(otherwise);
            }
            self.at += 1;
        }
    }

    /// S?; whether there was any.
    fn blanks(&mut self) -> bool {
        let blanks = self.rest().iter().take_while(|byte| is_blank(**byte)).count();
        self.at += blanks;
        blanks > 0
    }
}

/// What several parts of a text have.
impl Reader<'_> {
    /// [25] Eq ::= S? '=' S?
    fn eq(&mut self) -> Read {
        self.blanks();
        self.word(b"=", 30)?;
        self.blanks();
        Ok(())
    }

    /// [15] Comment ::= '<!--' ((Char - '-') | ('-' (Char - '-')))* '-->', or what else may come after <!
    fn comment(&mut self) -> Read {
        self.word(b"<!", 30)?;
        match self.byte()? {
            b'D' => return self.refuse(32),
            b'[' => return self.refuse(34),
            _ => self.word(b"--", 30)?,
        }
        while !self.comes(b"--") {
            self.char()?;
        }
        self.word(b"-->", 30)
    }

    /// [2] Char, as UTF-8
    fn char(&mut self) -> Read {
        let start = self.at;
        loop {
            self.byte()?;
            match spelled(&self.text[start..=self.at]) {
                Spelled::Not => return self.refuse(31),
                Spelled::Begun => self.at += 1,
                Spelled::Whole => {
                    self.at += 1;
                    return Ok(());
                }
            }
        }
    }
}
