//! The texts go where a comparison on them must go: to every refusal and every limit, and through everything that is read.

use second::xml::names::{Names, UNKNOWN};
use second::xml::{read, Event};
use std::collections::BTreeMap;
use xml::cases::{damaged, documents, Kind};
use xml::damage::Damage;
use xml::{stems, words};

const TEXTS: usize = 20_000;

/// How often each refusal comes, 0 for none.
fn refusals(texts: impl Iterator<Item = Vec<u8>>) -> BTreeMap<u8, usize> {
    let mut counts = BTreeMap::new();
    texts.for_each(|text| *counts.entry(read(&text).refusal.map_or(0, |refusal| refusal.number)).or_default() += 1);
    counts
}

#[test]
fn documents_are_taken_but_past_a_limit() {
    let counts = refusals(documents(1).take(TEXTS).map(|case| case.text));
    let expected = [0, 37, 38, 39, 41];
    assert_eq!(counts.keys().copied().collect::<Vec<_>>(), expected, "{counts:?}");
    assert!(counts[&0] > TEXTS * 9 / 10 && expected.iter().all(|number| counts[number] >= 20), "{counts:?}");
    for case in documents(1).take(TEXTS).filter(|case| ![Kind::Edge, Kind::Nest].contains(&case.kind)) {
        assert_eq!(read(&case.text).refusal, None, "{:?}: {}", case.kind, case.text.escape_ascii());
    }
}

#[test]
fn damaged_documents_get_every_refusal() {
    let counts = refusals(damaged(1).take(TEXTS).map(|(_, case)| case.text));
    assert_eq!(counts.keys().copied().collect::<Vec<_>>(), [&[0][..], &(30..=44).collect::<Vec<_>>()].concat());
    assert!(counts.values().all(|count| *count >= 5), "{counts:?}");
    assert!(counts[&0] < TEXTS / 4, "{counts:?}");
}

#[test]
fn every_damage_gets_some_refusals() {
    let mut texts: BTreeMap<Damage, Vec<Vec<u8>>> = BTreeMap::new();
    damaged(1).take(TEXTS / 4).for_each(|(first, case)| texts.entry(first).or_default().push(case.text));
    assert_eq!(texts.len(), Damage::ALL.len());
    for (damage, texts) in texts {
        let counts = refusals(texts.into_iter());
        let expected = if damage == Damage::Encoded { 1 } else { 4 };
        assert!(counts.len() >= expected && counts.contains_key(&30), "{damage:?}: {counts:?}");
    }
}

#[test]
fn stems_get_every_refusal() {
    let counts = refusals(stems::texts());
    assert!((30..=44).all(|number| counts.contains_key(&number)), "{counts:?}");
}

#[test]
fn documents_have_everything_that_is_read() {
    let pieces: [&str; 34] = [
        "\u{feff}<",
        "\u{feff}<?xml",
        "<?xml\t",
        "version='1.0'",
        "version=\"1.0\"",
        "encoding='uTF-8'",
        "encoding=\"utf-8\"",
        "standalone='no'",
        "standalone=\"yes\"",
        " ?>",
        "--><!--",
        "<!---->",
        "<!---",
        "&lt;",
        "&gt;",
        "&amp;",
        "&apos;",
        "&quot;",
        "]]&gt;",
        "]]]]",
        "]>",
        "='>",
        "=\"'",
        "='\"",
        "]]>'",
        "\n=",
        "=\n",
        "\r\n",
        " />",
        "\u{10ffff}",
        "\u{d7ff}",
        "\u{fffd}",
        "\u{80}",
        "\u{800}",
    ];
    let mut missing: Vec<&[u8]> = pieces.iter().map(|piece| piece.as_bytes()).collect();
    for case in documents(1).take(TEXTS).filter(|case| read(&case.text).refusal.is_none()) {
        missing.retain(|piece| !case.text.windows(piece.len()).any(|part| part == *piece));
    }
    assert_eq!(missing, [b""; 0], "no document has these");
}

#[test]
fn some_texts_are_longer_than_a_block() {
    let long = |case: &xml::cases::Case| case.text.len() > 65_536;
    assert!(documents(1).take(TEXTS).filter(long).count() >= 10);
    assert!(damaged(1).take(TEXTS).filter(|(_, case)| long(case)).count() >= 10);
}

#[test]
fn nests_go_to_the_limit_and_past_it() {
    let mut deepest = BTreeMap::new();
    for case in documents(1).take(TEXTS).filter(|case| case.kind == Kind::Nest) {
        let (mut depth, mut most) = (0, 0);
        for event in read(&case.text).events {
            match event {
                Event::Open(_) => depth += 1,
                Event::Close(_) => depth -= 1,
                Event::Comment => (),
            }
            most = most.max(depth);
        }
        *deepest.entry((most, read(&case.text).refusal.is_some())).or_insert(0) += 1;
    }
    for reached in [(255, false), (256, false), (256, true)] {
        assert!(deepest.get(&reached).is_some_and(|count| *count >= 5), "{reached:?}: {deepest:?}");
    }
}

#[test]
fn names_are_in_the_list_and_are_not() {
    let list = words::list();
    let names = Names::read(&list).expect("the list is in order");
    let (mut known, mut unknown, mut long) = (0, 0, 0);
    for case in documents(1).take(TEXTS) {
        for event in read(&case.text).events {
            if let Event::Open(name) = event {
                known += usize::from(names.number(name) != UNKNOWN);
                unknown += usize::from(names.number(name) == UNKNOWN);
                long += usize::from(names.number(name) != UNKNOWN && name.len() >= 63);
            }
        }
    }
    assert!(known > TEXTS && unknown > TEXTS && long > 100, "{known} {unknown} {long}");
}
