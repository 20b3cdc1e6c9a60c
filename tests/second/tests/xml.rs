//! The second program's reader of XML text, production by production of docs/XML.md and row by row of its refusals.

use second::xml::read;

/// All 256 elements that may be inside each other.
fn nest(inside: &str) -> String {
    ["<d>".repeat(256).as_str(), inside, "</d>".repeat(256).as_str()].concat()
}

/// A tag with so many attributes, not yet ended.
fn tag_with(attributes: usize) -> String {
    (1..=attributes).fold("<a".into(), |tag, number| format!("{tag} b{number}=''"))
}

#[track_caller]
fn comes_of(text: impl AsRef<[u8]>, said: &str) {
    let text = text.as_ref();
    assert_eq!(read(text).to_string(), said, "of {}", text.escape_ascii());
}

/// The text is read; what comes of it is not looked at.
#[track_caller]
fn taken(text: impl AsRef<[u8]>) {
    let text = text.as_ref();
    assert_eq!(read(text).refusal, None, "of {}", text.escape_ascii());
}

/// The last byte of the text gets the refusal, whatever follows. The text before it goes on: it is whole, or ends too early.
#[track_caller]
fn last_byte_refused(number: u8, text: impl AsRef<[u8]>) {
    let text = text.as_ref();
    let refused = |text: &[u8]| read(text).refusal.map(|refusal| (refusal.number, refusal.byte));
    let (before, byte) = (&text[..text.len() - 1], text.len());
    assert!([None, Some((44, byte))].contains(&refused(before)), "of {}", before.escape_ascii());
    assert_eq!(refused(text), Some((number, byte)), "of {}", text.escape_ascii());
    assert_eq!(refused(&[text, b"<a/>"].concat()), Some((number, byte)), "of {} and more", text.escape_ascii());
}

mod productions {
    use super::*;

    #[test]
    fn document() {
        comes_of("<a/>", "(a )a end");
        comes_of("\u{feff}<a/>", "(a )a end");
        comes_of("<!--x--> <a/> <!--y-->\n", "(a )a end");
        comes_of("", "refused 44 at 1");
        comes_of("<a/><b/>", "(a )a refused 30 at 6");
        comes_of("<a/>x", "(a )a refused 30 at 5");
        comes_of("x<a/>", "refused 30 at 1");
        comes_of(" \u{feff}<a/>", "refused 30 at 2");
        comes_of("\u{feff}\u{feff}<a/>", "refused 30 at 4");
        comes_of(b"\xef\xbb<a/>", "refused 30 at 3");
        comes_of(b"\xef", "refused 44 at 2");
    }

    #[test]
    fn chars() {
        for char in "\t\n\r \x7f\u{80}\u{7ff}\u{800}\u{d7ff}\u{e000}\u{fffd}\u{10000}\u{1fffe}\u{10ffff}".chars() {
            taken(format!("<a b='{char}'>{char}<!--{char}--></a>"));
        }
    }

    #[test]
    fn blanks() {
        comes_of(" \t\r\n<a \t\r\nb \t\r\n= \t\r\n'' \t\r\n></a \t\r\n> \t\r\n", "(a )a end");
        last_byte_refused(30, " \u{b}");
        last_byte_refused(30, "< ");
        last_byte_refused(30, "<a / ");
        last_byte_refused(40, "<a></ ");
    }

    #[test]
    fn names() {
        for name in [":", "_", "A", "z", "a:b:c", "_-.0:", "Z9", &"n".repeat(64)] {
            comes_of(format!("<{name}></{name}>"), &format!("({name} ){name} end"));
            taken(format!("<a {name}='{name}'/>"));
        }
        for first in ["-", ".", "0", "9", "@", "[", "`", "{", ";"] {
            last_byte_refused(30, format!("<{first}"));
            last_byte_refused(30, format!("<a {first}"));
        }
        for next in [",", ";", "@", "[", "^", "`", "{"] {
            last_byte_refused(30, format!("<a{next}"));
            last_byte_refused(30, format!("<a b{next}"));
        }
    }

    #[test]
    fn attribute_values() {
        taken("<a b='' c=\"\" d='\"' e=\"'\" f='>' g=']]>' h='--' i='&lt;&gt;&amp;&apos;&quot;'/>");
        last_byte_refused(30, "<a b=c");
        last_byte_refused(30, "<a b=>");
        last_byte_refused(30, "<a b='<");
        comes_of("<a b='\"/>", "refused 44 at 10");
    }

    #[test]
    fn character_data() {
        taken("<a>x ] ]] ]>]]x> ]]]] - --> ' \" / = ?> &gt;]]&gt; ]&gt;></a>");
        taken("<a>]]<!---->></a>");
        taken("<a>]]<b/>></a>");
        last_byte_refused(30, "<a>]]>");
        last_byte_refused(30, "<a>x]]]]>");
    }

    #[test]
    fn comments() {
        for inside in ["", " - ", "<>&'\"", "-x", "->", "-<", "<!-x", "<a></a>", "]]>", "&#1;", "\u{10ffff}-\u{e9}"] {
            comes_of(format!("<!--{inside}--><a><!--{inside}--></a><!--{inside}-->"), "(a ! )a end");
        }
        last_byte_refused(30, "<a><!--x-- ");
        last_byte_refused(30, "<!-----");
        last_byte_refused(30, "<a/><!x");
        last_byte_refused(30, "<a><!-x");
    }

    #[test]
    fn declaration() {
        for encoding in ["", " encoding='UTF-8'", "\tencoding\n=\r\"utf-8\"", " encoding='uTf-8'"] {
            for standalone in ["", " standalone='yes'", "\nstandalone = \"no\""] {
                for end in ["?>", " ?>", "\r\n?><!--x-->"] {
                    taken(format!("<?xml version='1.0'{encoding}{standalone}{end}<a/>"));
                    taken(format!("\u{feff}<?xml\t\nversion = \"1.0\"{encoding}{standalone}{end}<a/>"));
                }
            }
        }
        last_byte_refused(30, "<?xml?");
        last_byte_refused(30, "<?xml ?");
        last_byte_refused(30, "<?xml e");
        last_byte_refused(30, "<?xml versionx");
        last_byte_refused(30, "<?xml version=1");
        last_byte_refused(30, "<?xml version='1.1");
        last_byte_refused(30, "<?xml version='1.0\"");
        last_byte_refused(30, "<?xml version='1.0'e");
        last_byte_refused(30, "<?xml version='1.0' standalone='y'");
        last_byte_refused(30, "<?xml version='1.0' standalone='no' e");
        last_byte_refused(30, "<?xml version='1.0' encoding='UTF-8's");
        last_byte_refused(30, "<?xml version='1.0' encoding='UTF-8' e");
        last_byte_refused(30, "<?xml version='1.0' >");
        last_byte_refused(30, "<?xml version='1.0'? ");
    }

    #[test]
    fn elements() {
        comes_of("<a><b></b><b/>x<c><a></a></c></a>", "(a (b )b (b )b (c (a )a )c )a end");
        comes_of("<a ></a >", "(a )a end");
        comes_of("<a />", "(a )a end");
        taken(nest(""));
        taken(nest("<!--x-->"));
        taken(format!("{}/>", tag_with(16)));
        taken(format!("{} >x</a>", tag_with(16)));
        taken("<a b='' B='' bb='' b:='' :b=''/>");
        last_byte_refused(30, "</");
        last_byte_refused(30, "<a b='' b>");
        last_byte_refused(30, "<a b c");
        last_byte_refused(30, "<a b=''c");
        last_byte_refused(30, "<a/ ");
        last_byte_refused(30, "<a></a b");
    }

    #[test]
    fn events_before_a_refusal() {
        comes_of("<a><b/><!--x--><c>&", "(a (b )b ! (c refused 44 at 20");
        comes_of("<a><b", "(a refused 44 at 6");
        comes_of("<a><b/", "(a refused 44 at 7");
        comes_of("<a></a", "(a refused 44 at 7");
        comes_of("<a><!--x--", "(a refused 44 at 11");
        comes_of("<a></a><!--x-->x", "(a )a refused 30 at 16");
    }
}

mod refusals {
    use super::*;

    #[test]
    fn r30_no_text_goes_on() {
        for text in ["\0", "&", "]", "<a\0", "<a>]]>", "<a><!----x", "<a><>", "<a/>&", "<a/></", "<a/><b"] {
            last_byte_refused(30, text);
        }
        last_byte_refused(30, b"\xff");
        last_byte_refused(30, b"<a/>\xc3");
        last_byte_refused(30, b"<a/><\xc3");
        last_byte_refused(30, b"<a b=''\xc3");
        last_byte_refused(30, b"<!----\xff");
    }

    #[test]
    fn r31_not_the_utf_8_form_of_a_char() {
        let forms: [&[u8]; 22] = [
            b"\0",
            b"\x08",
            b"\x0b",
            b"\x0c",
            b"\x1f",
            b"\x80",
            b"\xbf",
            b"\xc1",
            b"\xc2\x7f",
            b"\xdf\xc0",
            b"\xe0\x9f",
            b"\xe0\xa0\x7f",
            b"\xed\xa0",
            b"\xed\x9f<",
            b"\xef\xbf\xbe",
            b"\xef\xbf\xbf",
            b"\xf0\x8f",
            b"\xf0\x90\x80\xc0",
            b"\xf4\x90",
            b"\xf4\x8f\xbf'",
            b"\xf5",
            b"\xff",
        ];
        for form in forms {
            for before in ["<a>", "<a>x]]", "<a>&lt;", "<a b='", "<a b=\"&lt;", "<!--", "<a><!---", "<a/><!--x"] {
                last_byte_refused(31, [before.as_bytes(), form].concat());
            }
        }
    }

    #[test]
    fn r32_a_document_type() {
        for before in ["", "\u{feff}", "<?xml version='1.0'?>", " ", "<!--x-->", "<a>", "<a/>"] {
            last_byte_refused(32, format!("{before}<!D"));
            last_byte_refused(30, format!("{before}<!d"));
        }
    }

    #[test]
    fn r33_a_processing_instruction() {
        for before in [" ", "<!--x-->", "<?xml version='1.0'?>", "<a>", "<a>x", "<a/>", "<a/> "] {
            last_byte_refused(33, format!("{before}<?"));
        }
        for start in ["", "\u{feff}"] {
            for wrong in ["p", "X", " ", "?", "xM", "xmL", "xm ", "xml-", "xmlx", "xml:", "xml0", "xm\u{1}"] {
                last_byte_refused(33, format!("{start}<?{wrong}"));
            }
        }
        last_byte_refused(33, b"<?\xc3");
        last_byte_refused(33, b"<?xml\xc3");
        last_byte_refused(30, "<?xml>");
    }

    #[test]
    fn r34_a_cdata_section() {
        for before in ["", "<a>", "<a>x", "<a/>"] {
            last_byte_refused(34, format!("{before}<!["));
        }
    }

    #[test]
    fn r35_a_character_reference() {
        for before in ["<a>", "<a>x&lt;", "<a b='", "<a b=\"&lt;"] {
            last_byte_refused(35, format!("{before}&#"));
        }
    }

    #[test]
    fn r36_another_entity() {
        let wrong = [
            ";", "x", " ", "&", "<", "\0", "l#", "l;", "lt ", "ltx", "g;", "gtt", "am;", "amq", "ap;", "apo;", "qo",
            "quo;",
        ];
        for wrong in wrong {
            for before in ["<a>", "<a>x&lt;", "<a b='", "<a b=\"&lt;"] {
                last_byte_refused(36, format!("{before}&{wrong}"));
            }
        }
        last_byte_refused(36, b"<a>&\xc3");
        last_byte_refused(36, b"<a b='&\xff");
    }

    #[test]
    fn r37_a_name_over_64_bytes() {
        let name = "n".repeat(64);
        last_byte_refused(37, format!("<{name}n"));
        last_byte_refused(37, format!("<a><{name}-"));
        last_byte_refused(37, format!("<a {name}."));
        last_byte_refused(37, format!("<a {name}='' {name}0"));
        last_byte_refused(30, format!("<{name};"));
    }

    #[test]
    fn r38_a_17th_attribute() {
        last_byte_refused(38, format!("{} b", tag_with(16)));
        last_byte_refused(30, format!("{} 1", tag_with(16)));
        last_byte_refused(30, format!("{}b", tag_with(16)));
    }

    #[test]
    fn r39_an_attribute_named_twice() {
        for end in ["=", " ", "\t", "\r", "\n"] {
            last_byte_refused(39, format!("<a b='' c='' b{end}"));
            last_byte_refused(39, format!("<a {0}='' {0}{end}", "n".repeat(64)));
        }
        last_byte_refused(39, format!("{} b2=", tag_with(15)));
        last_byte_refused(30, "<a b='' b/");
    }

    #[test]
    fn r40_another_end_tag() {
        for wrong in ["b", "A", ">", " ", "a>", "aa", "ab ", "abcc", "abc<", "abcdd", "abcd-", "abcd:", "abcd0"] {
            last_byte_refused(40, format!("<abcd></{wrong}"));
        }
        last_byte_refused(40, b"<a></\xc3");
        last_byte_refused(40, b"<a></a\xc3");
        last_byte_refused(40, format!("<{0}></{0}n", "n".repeat(64)));
        comes_of("<a><b></a></b>", "(a (b refused 40 at 9");
        last_byte_refused(30, "<a></a/");
    }

    #[test]
    fn r41_an_element_inside_256_others() {
        comes_of(nest("<e/>"), &format!("{}refused 41 at 770", "(d ".repeat(256)));
        comes_of(nest("<0"), &format!("{}refused 30 at 770", "(d ".repeat(256)));
    }

    #[test]
    fn r42_another_encoding() {
        for wrong in ["'", "\"", "l", " ", "U'", "utg", "UTF8", "UTF-1", "UTF-8\"", "UTF-8 ", "UTF-80"] {
            last_byte_refused(42, format!("<?xml version='1.0' encoding='{wrong}"));
        }
        last_byte_refused(42, b"<?xml version='1.0' encoding=\"\xc3");
        last_byte_refused(30, "<?xml version='1.0' encoding=U");
    }

    #[test]
    fn r43_a_name_beyond_ascii() {
        for before in ["<", "<a", "<a ", "<a b", "<a b='' ", "<a>x<", "<!--x--><", "<a><b:"] {
            for byte in [0x80, 0xc3, 0xff] {
                last_byte_refused(43, [before.as_bytes(), &[byte]].concat());
            }
        }
        // No limit is passed by a byte that is not read as part of a name.
        for before in [format!("<{}", "n".repeat(64)), format!("{} ", tag_with(16)), format!("{}<", "<d>".repeat(256))]
        {
            last_byte_refused(43, [before.as_bytes(), b"\xc3"].concat());
        }
    }

    #[test]
    fn r44_the_text_ends() {
        let whole = "\u{feff}<?xml version='1.0' encoding='UTF-8' standalone='no' ?><!--x--><a b='&lt;\u{e9}'>\u{10000}&amp;<!--y--></a>";
        for end in 0..whole.len() {
            let refusal = read(&whole.as_bytes()[..end]).refusal.expect("a part is not the whole");
            assert_eq!((refusal.number, refusal.byte), (44, end + 1));
        }
        taken(whole);
    }
}
