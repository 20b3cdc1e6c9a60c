//! Writes a thematic catalogue as XML text, the same on every machine: entries with their themes, keys and incipits, sources
//! and remarks. It has what such a text has: indented elements, attributes in both quotes, entities, comments, and about one
//! character in a hundred beyond ASCII.
//!
//!     catalogue FOLDER [MEGABYTES]      (50)
//!
//! catalogue.xml is the text, and names.txt the list of its names.

mod draws;

use draws::Draws;
use std::fmt::Write;
use std::fs::{create_dir_all, write};
use std::io::Result;
use std::path::Path;

const NAMES: &str = "catalogue\nentry\nnumber\ncomposer\ntitle\nkey\nyear\nscoring\npart\ntheme\ntempo\nmeter\nincipit\nsource\nref\nremark\n";

const COMPOSERS: [(&str, u16, u16); 10] = [
    ("Franz Schubert", 1797, 1828),
    ("Antonín Dvořák", 1841, 1904),
    ("Élisabeth Jacquet de La Guerre", 1665, 1729),
    ("Joseph Haydn", 1732, 1809),
    ("Camille Saint-Saëns", 1835, 1921),
    ("Clara Schumann", 1819, 1896),
    ("Leoš Janáček", 1854, 1928),
    ("Пётр Чайковский", 1840, 1893),
    ("Johann Sebastian Bach", 1685, 1750),
    ("Béla Bartók", 1881, 1945),
];
const WORKS: [&str; 10] = [
    "Sonate für Klavier",
    "Streichquartett",
    "Konzert für Violine &amp; Orchester",
    "Lied &quot;Der Wanderer&quot;",
    "Trio for two oboes &amp; cor anglais",
    "Messe solennelle",
    "Fantasie über &apos;O Haupt voll Blut&apos;",
    "Symphonie",
    "Prélude et fugue",
    "Divertimento",
];
const KEYS: [(&str, &str); 12] = [
    ("C", "major"),
    ("c", "minor"),
    ("D", "major"),
    ("d", "minor"),
    ("E♭", "major"),
    ("e", "minor"),
    ("F", "major"),
    ("f♯", "minor"),
    ("G", "major"),
    ("g", "minor"),
    ("A", "major"),
    ("B♭", "major"),
];
const LISTS: [&str; 5] = ["D", "Hob.", "WoO", "BWV", "Op."];
const PARTS: [&str; 12] = ["vl 1", "vl 2", "vla", "vc", "cb", "fl", "ob", "cl", "fag", "cor", "pf", "S"];
const TEMPI: [&str; 10] = [
    "Allegro ma non troppo",
    "Molto moderato",
    "Andante sostenuto",
    "Menuetto. Allegretto",
    "Adagio",
    "Presto",
    "Scherzo. Allegro vivace con delicatezza",
    "Rondo",
    "Langsam, aber fließend",
    "Très modéré",
];
const METERS: [&str; 6] = ["c", "c/", "3/4", "2/4", "6/8", "3/8"];
const CLEFS: [&str; 4] = ["G-2", "F-4", "C-3", "C-1"];
const LIBRARIES: [&str; 6] = ["A-Wgm", "D-B", "F-Pn", "GB-Lbl", "CZ-Pnm", "US-NYpm"];
const KINDS: [&str; 4] = ["autograph", "copy", "first edition", "sketch"];
const REMARKS: [&str; 8] = [
    "The theme returns in bar 37 in the relative major; the copyist writes a dotted rhythm throughout.",
    "Dated at the end: &quot;Wien, im Sept. 1828&quot;.",
    "Tempo in the first edition &lt; in the autograph; see the thematic index of the collected works.",
    "Incipit after the parts, since the score is lost.",
    "Zweite Fassung; die erste (ohne Trompeten &amp; Pauken) ist verschollen.",
    "L&apos;authenticité est douteuse: le papier a un filigrane postérieur à 1830.",
    "Watermark: three crescents, REAL — 12 staves, rastrum 187 mm.",
    "Key signature of one flat only; the sixth degree is raised by an accidental each time.",
];
const COMMENTS: [&str; 4] =
    ["incipit checked against the source", "folio numbers - see the old card", "TODO: siglum?", "geprüft"];
/// A bar of an incipit in Plaine & Easie code.
const BARS: [&str; 10] = [
    "4'C8DE4FG",
    "2''C4-'B",
    "{8.'G6A}4BG",
    "4,A'C{8EDCB}",
    "2.'xF",
    "8'GABCDEFG",
    "4''bE^E'D",
    "(6GAG)4-2C",
    "=2",
    "4'G+G{8FE}D",
];

impl Draws {
    fn pick<T: Copy>(&mut self, from: &[T]) -> T {
        from[self.below(from.len())]
    }
}

fn entry(text: &mut String, draws: &mut Draws, number: usize) -> std::fmt::Result {
    let (composer, born, died) = draws.pick(&COMPOSERS);
    let (tonic, mode) = draws.pick(&KEYS);
    let year = born + 16 + draws.below(usize::from(died - born) - 16) as u16;
    writeln!(text, "  <entry id=\"e{number:06}\" status='{}'>", draws.pick(&["published", "draft"]))?;
    writeln!(text, "    <number>{} {}</number>", draws.pick(&LISTS), 1 + draws.below(998))?;
    writeln!(text, "    <composer born=\"{born}\" died=\"{died}\">{composer}</composer>")?;
    writeln!(text, "    <title>{}, {tonic}</title>", draws.pick(&WORKS))?;
    writeln!(text, "    <key mode=\"{mode}\">{tonic}</key>\n    <year>{year}</year>")?;
    text.push_str("    <scoring>");
    for _ in 0..1 + draws.below(5) {
        write!(text, "<part>{}</part>", draws.pick(&PARTS))?;
    }
    text.push_str("</scoring>\n");
    for movement in 1..=1 + draws.below(4) {
        theme(text, draws, movement)?;
    }
    source(text, draws)?;
    text.push_str("  </entry>\n");
    Ok(())
}

fn theme(text: &mut String, draws: &mut Draws, movement: usize) -> std::fmt::Result {
    writeln!(text, "    <theme movement=\"{movement}\" bars='1-{}'>", 2 + draws.below(14))?;
    if draws.below(8) == 0 {
        writeln!(text, "      <!-- {} -->", draws.pick(&COMMENTS))?;
    }
    writeln!(text, "      <tempo>{}</tempo><meter>{}</meter>", draws.pick(&TEMPI), draws.pick(&METERS))?;
    write!(text, "      <incipit clef=\"{}\" code=\"plaine-easie\">", draws.pick(&CLEFS))?;
    for _ in 0..3 + draws.below(5) {
        write!(text, "{}/", draws.pick(&BARS))?;
    }
    text.push_str("</incipit>\n    </theme>\n");
    Ok(())
}

fn source(text: &mut String, draws: &mut Draws) -> std::fmt::Result {
    write!(text, "    <source kind=\"{}\" library='{}'>", draws.pick(&KINDS), draws.pick(&LIBRARIES))?;
    writeln!(text, "<ref page=\"{}\" volume=\"{}\"/></source>", 1 + draws.below(600), 1 + draws.below(20))?;
    for _ in 0..draws.below(3) {
        writeln!(text, "    <remark xml:lang='mul'>{}</remark>", draws.pick(&REMARKS))?;
    }
    Ok(())
}

const START: &str = "<?xml version=\"1.0\" encoding=\"UTF-8\"?>\n<!-- A thematic catalogue -->\n<catalogue>\n";

fn catalogue(bytes: usize) -> String {
    let mut text = String::from(START);
    let mut draws = Draws::begin();
    for number in 1.. {
        if text.len() >= bytes {
            break;
        }
        entry(&mut text, &mut draws, number).expect("a string takes all that is written to it");
    }
    text + "</catalogue>\n"
}

fn main() -> Result<()> {
    let words: Vec<String> = std::env::args().skip(1).collect();
    let (folder, megabytes) = match &words[..] {
        [folder] => (Path::new(folder), Some(50)),
        [folder, megabytes] => (Path::new(folder), megabytes.parse::<usize>().ok()),
        _ => (Path::new(""), None),
    };
    let Some(megabytes) = megabytes else {
        eprintln!("catalogue FOLDER [MEGABYTES]");
        std::process::exit(2);
    };
    create_dir_all(folder)?;
    write(folder.join("names.txt"), NAMES)?;
    write(folder.join("catalogue.xml"), catalogue(megabytes * 1_000_000))
}
