//! The document, what stands around its element, and the declaration.

use super::chars::continues_name;
use super::{Read, Reader, QUOTES};

const MARK: &[u8] = b"\xef\xbb\xbf";

impl<'t> Reader<'t> {
    /// [1] document ::= prolog element Misc*, and a byte order mark before it
    pub(super) fn document(&mut self) -> Read {
        if self.comes(&MARK[..1]) {
            self.word(MARK, 30)?;
        }
        self.prolog()?;
        self.element(0)?;
        self.misc()?;
        self.end()
    }

    /// No text goes on after the last Misc but with another one, so with a `<` at most.
    fn end(&mut self) -> Read {
        if self.rest().is_empty() {
            return Ok(());
        }
        self.word(b"<", 30)?;
        match self.byte()? {
            b'?' => self.refuse(33),
            _ => self.refuse(30),
        }
    }

    /// [22] prolog ::= XMLDecl? Misc*
    fn prolog(&mut self) -> Read {
        if self.comes(b"<?") {
            self.declaration()?;
        }
        self.misc()
    }

    /// [27] Misc ::= Comment | S, as many as there are
    fn misc(&mut self) -> Read {
        self.blanks();
        while self.comes(b"<!") {
            self.comment()?;
            self.blanks();
        }
        Ok(())
    }

    /// [23] XMLDecl ::= '<?xml' VersionInfo EncodingDecl? SDDecl? S? '?>'
    fn declaration(&mut self) -> Read {
        self.word(b"<?xml", 33)?;
        if continues_name(self.byte()?) || !self.byte()?.is_ascii() {
            return self.refuse(33);
        }
        self.version_info()?;
        let mut parted = self.blanks();
        if parted && self.comes(b"e") {
            self.encoding_decl()?;
            parted = self.blanks();
        }
        if parted && self.comes(b"s") {
            self.sd_decl()?;
            self.blanks();
        }
        self.word(b"?>", 30)
    }

    /// [24] VersionInfo ::= S 'version' Eq VersionNum, this in either quotes; [26] VersionNum: 1.0 alone
    fn version_info(&mut self) -> Read {
        if !self.blanks() {
            return self.refuse(30);
        }
        self.word(b"version", 30)?;
        self.eq()?;
        let quote = self.one_of(&QUOTES, 30)?;
        self.word(b"1.0", 30)?;
        self.word(quote, 30)
    }

    /// [80] EncodingDecl ::= S 'encoding' Eq EncName, this in either quotes; what comes after S
    fn encoding_decl(&mut self) -> Read {
        self.word(b"encoding", 30)?;
        self.eq()?;
        let quote = self.one_of(&QUOTES, 30)?;
        for letter in b"UTF-8" {
            if !self.byte()?.eq_ignore_ascii_case(letter) {
                return self.refuse(42);
            }
            self.at += 1;
        }
        self.word(quote, 42)
    }

    /// [32] SDDecl ::= S 'standalone' Eq ('yes' | 'no'), this in either quotes; what comes after S
    fn sd_decl(&mut self) -> Read {
        self.word(b"standalone", 30)?;
        self.eq()?;
        let quote = self.one_of(&QUOTES, 30)?;
        self.one_of(&[b"yes", b"no"], 30)?;
        self.word(quote, 30)
    }
}
