//! Every byte after every stem: where a reader may be, and what it does then with each of the 256 bytes.

use second::xml::{MOST_ATTRIBUTES, MOST_NAME_BYTES};
use second::MOST_OPEN;

/// Documents in which every production is begun and ended; each part of them is a stem.
const WHOLE: [&str; 8] = [
    "\u{feff}<?xml version='1.0' encoding=\"UTF-8\" standalone='yes' ?><!-- -x--> <a/> <!--y-->\n",
    "<?xml\tversion = \"1.0\"\nencoding = 'utf-8'?>\r<_ :='' />",
    "<?xml version='1.0' standalone=\"no\"?><a></a>",
    "<ab c='&lt;]>' d = \"&quot;'\" c1=''>x]]y]&gt;<!--<&]]>--><ab/></ab >",
    "<a>&amp;&apos;-<b:1.-_></b:1.-_></a>",
    "<a b='\u{e9}\u{800}\u{d7ff}'>\u{7ff}\u{fffd}\u{10000}<!--\u{e000}\u{40000}-->\u{10ffff}</a>",
    "\t<!--\u{fff}--><a \n\tb\r=\n\"\"\t/>",
    "\u{feff}\r<a/>",
];

/// At the limits: a name of 64 bytes, one that spells an earlier one, all attributes of a tag, all elements that may be open.
fn at_the_limits() -> Vec<Vec<u8>> {
    let name = "n".repeat(MOST_NAME_BYTES);
    let almost = &name[1..];
    let attributes: String = (1..MOST_ATTRIBUTES).map(|number| format!(" a{number}=''")).collect();
    let nest = "<d>".repeat(MOST_OPEN);
    let stems = [
        format!("<{almost}"),
        format!("<{name}"),
        format!("<{name}></{almost}"),
        format!("<{name}></{name}"),
        format!("<a {almost}"),
        format!("<a {name}"),
        format!("<a {name}='' {almost}"),
        format!("<a {name}='' {name}"),
        format!("<a {almost}='' {name}"),
        format!("<a{attributes} "),
        format!("<a{attributes} a2"),
        format!("<a{attributes} {name}=''"),
        format!("<a{attributes} b='' "),
        format!("<a{attributes} b='' /"),
        nest.clone(),
        format!("{nest}<"),
        format!("{nest}</"),
        format!("{nest}<!--x--"),
        format!("{}<", &nest[3..]),
        format!("{}<e", &nest[3..]),
        format!("{}<e/><", &nest[3..]),
        format!("{nest}</d><"),
    ];
    stems.map(String::into_bytes).into()
}

/// The texts that end with each byte in turn after each stem.
pub fn texts() -> impl Iterator<Item = Vec<u8>> {
    let parts = |whole: &'static str| (0..=whole.len()).map(|end| whole.as_bytes()[..end].to_vec());
    let stems = WHOLE.into_iter().flat_map(parts).chain(at_the_limits());
    stems.flat_map(|stem| (0..=255).map(move |byte| [&stem[..], &[byte]].concat()))
}
