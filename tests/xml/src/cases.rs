//! Texts of several kinds.

use crate::damage::Damage;
use crate::documents::{document, Edge};
use random::chance::Chance;
use random::shapes::{names, nest, tree};

#[derive(Clone, Copy, Debug, PartialEq, Eq, Hash, PartialOrd, Ord)]
pub enum Kind {
    /// One element, or two.
    Short,
    /// Some elements, some dozens and some hundred.
    Small,
    Wide,
    Large,
    /// Some thousand elements: mostly more than 64 KiB, so more than a reader is given at a time.
    Huge,
    /// Deep nests, up to the depth that may be open and past it.
    Nest,
    /// One tag at a limit, or past it.
    Edge,
}

/// What a text is.
#[derive(Clone, Debug)]
pub struct Case {
    pub kind: Kind,
    pub text: Vec<u8>,
}

/// The documents of a seed, without end. Each depends on the seed and its own place only.
pub fn documents(seed: u64) -> impl Iterator<Item = Case> {
    (0..).map(move |place| case(&mut Chance::new(seed, place), place))
}

/// The damaged documents of a seed, without end, with what was done to each first.
pub fn damaged(seed: u64) -> impl Iterator<Item = (Damage, Case)> {
    (0..).map(move |place| {
        let chance = &mut Chance::new(!seed, place);
        let (case, other) = (case(chance, place), case(chance, place / 2));
        // One in a hundred in UTF-16: such a text is refused at its first bytes.
        let first = match place % 100 {
            50 => Damage::Encoded,
            _ => Damage::ALL[place as usize % (Damage::ALL.len() - 1)],
        };
        let text = first.done(chance, &case.text, &other.text);
        (first, Case { text: damaged_more(chance, text, &other.text), ..case })
    })
}

/// The text with more done to it, three times in ten.
fn damaged_more(chance: &mut Chance, text: Vec<u8>, other: &[u8]) -> Vec<u8> {
    let more = *chance.pick(&[0, 0, 0, 0, 0, 0, 0, 1, 1, 2]);
    (0..more).fold(text, |text, _| chance.pick(&Damage::ALL).done(chance, &text, other))
}

/// In each 1,000 one is huge; in each 100, one is large and three are nests.
fn case(chance: &mut Chance, place: u64) -> Case {
    let kind = match place % 100 {
        0 if place % 1_000 == 500 => Kind::Huge,
        0 => Kind::Large,
        1..=3 => Kind::Nest,
        4..=13 => Kind::Edge,
        14..=33 => Kind::Wide,
        34..=73 => Kind::Small,
        _ => Kind::Short,
    };
    let edge = (kind == Kind::Edge).then(|| *chance.pick(&Edge::ALL));
    let names = names(chance);
    let events = match kind {
        Kind::Short => tree(chance, &names, 2),
        Kind::Small | Kind::Edge => tree(chance, &names, 8),
        Kind::Wide => tree(chance, &names, 40),
        Kind::Large => tree(chance, &names, 200),
        Kind::Huge => tree(chance, &names, 5_000),
        Kind::Nest => nest(chance, &names),
    };
    Case { kind, text: document(chance, &events, edge) }
}
