//! Elements and what is in them.

use super::chars::{begins_name, continues_name, is_blank};
use super::{Event, Read, Reader, MOST_ATTRIBUTES, MOST_NAME_BYTES, QUOTES};
use crate::MOST_OPEN;

const ENTITIES: [&[u8]; 5] = [b"lt;", b"gt;", b"amp;", b"apos;", b"quot;"];

impl<'t> Reader<'t> {
    /// [39] element ::= EmptyElemTag | STag content ETag, inside so many others
    pub(super) fn element(&mut self, around: usize) -> Read {
        self.word(b"<", 30)?;
        if self.byte()? == b'?' {
            return self.refuse(33);
        }
        self.begin_name(around == MOST_OPEN, 41)?;
        let name = self.name()?;
        let is_empty = self.attributes()?;
        self.events.push(Event::Open(name));
        if !is_empty {
            self.content(around + 1)?;
            self.e_tag(name)?;
        }
        self.events.push(Event::Close(name));
        Ok(())
    }

    /// What [40] STag ::= '<' Name (S Attribute)* S? '>' and [44] EmptyElemTag ::= '<' Name (S Attribute)* S? '/>' have after the
    /// name; whether it is the second.
    fn attributes(&mut self) -> Read<bool> {
        let mut names = Vec::new();
        loop {
            let parted = self.blanks();
            match self.byte()? {
                b'>' => return self.word(b">", 30).map(|()| false),
                b'/' => return self.word(b"/>", 30).map(|()| true),
                _ if parted => self.attribute(&mut names)?,
                _ => return self.refuse(30),
            }
        }
    }

    /// [41] Attribute ::= Name Eq AttValue, after those of these names
    fn attribute(&mut self, names: &mut Vec<&'t [u8]>) -> Read {
        self.begin_name(names.len() == MOST_ATTRIBUTES, 38)?;
        let name = self.name()?;
        let next = self.byte()?;
        if names.contains(&name) && (is_blank(next) || next == b'=') {
            return self.refuse(39);
        }
        names.push(name);
        self.eq()?;
        self.att_value()
    }

    /// The first byte of a name; where there may be no more of them it gets this refusal.
    fn begin_name(&self, full: bool, otherwise: u8) -> Read {
        match self.byte()? {
            byte if !byte.is_ascii() => self.refuse(43),
            byte if !begins_name(byte) => self.refuse(30),
            _ if full => self.refuse(otherwise),
            _ => Ok(()),
        }
    }

    /// [5] Name ::= NameStartChar (NameChar)*, of which the first byte was looked at
    fn name(&mut self) -> Read<&'t [u8]> {
        let rest = self.rest();
        let length = rest.iter().take_while(|byte| continues_name(**byte)).count();
        self.at += length.min(MOST_NAME_BYTES);
        match rest.get(length) {
            _ if length > MOST_NAME_BYTES => self.refuse(37),
            Some(byte) if !byte.is_ascii() => self.refuse(43),
            _ => Ok(&rest[..length]),
        }
    }

    /// [10] AttValue ::= ([^<&] | Reference)*, in either quotes and without them
    fn att_value(&mut self) -> Read {
        let quote = self.one_of(&QUOTES, 30)?;
        while !self.comes(quote) {
            match self.byte()? {
                b'<' => return self.refuse(30),
                b'&' => self.reference()?,
                _ => self.char()?,
            }
        }
        self.word(quote, 30)
    }

    /// [43] content ::= CharData? ((element | Reference | Comment) CharData?)*, up to the end tag
    fn content(&mut self, around: usize) -> Read {
        self.char_data()?;
        while !self.comes(b"</") {
            if self.comes(b"&") {
                self.reference()?;
            } else if self.comes(b"<!") {
                self.comment()?;
                self.events.push(Event::Comment);
            } else {
                self.element(around)?;
            }
            self.char_data()?;
        }
        Ok(())
    }

    /// [14] CharData ::= [^<&]* - ([^<&]* ']]>' [^<&]*)
    fn char_data(&mut self) -> Read {
        let start = self.at;
        while !(self.rest().is_empty() || self.comes(b"<") || self.comes(b"&")) {
            if self.comes(b">") && self.text[start..self.at].ends_with(b"]]") {
                return self.refuse(30);
            }
            self.char()?;
        }
        Ok(())
    }

    /// [67] Reference ::= EntityRef | CharRef: one of the five entities
    fn reference(&mut self) -> Read {
        self.word(b"&", 30)?;
        if self.byte()? == b'#' {
            return self.refuse(35);
        }
        self.one_of(&ENTITIES, 36)?;
        Ok(())
    }

    /// [42] ETag ::= '</' Name S? '>', of the element of this name
    fn e_tag(&mut self, name: &[u8]) -> Read {
        self.word(b"</", 30)?;
        self.word(name, 40)?;
        if continues_name(self.byte()?) || !self.byte()?.is_ascii() {
            return self.refuse(40);
        }
        self.blanks();
        self.word(b">", 30)
    }
}
