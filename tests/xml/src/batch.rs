//! Batches of texts for a reader (`second::xml::batch` has their form): texts cut into blocks, and what a reader answers judged.

use random::chance::Chance;
use second::xml::batch::{answer, cases, Case, CLOSING, LEAST_ROOM};
use second::xml::names::Names;
use std::collections::BTreeMap;

const RECORD: usize = 8;
/// Up to this length a text is cut at every place.
const SHORT: usize = 48;

/// The text in blocks of several lengths: a short one in those of every length, so that it is cut at every place.
pub fn cuts<'t>(chance: &mut Chance, text: &'t [u8]) -> Vec<Case<'t>> {
    let blocks: Vec<usize> = match text.len() {
        0..=SHORT => (0..=text.len()).collect(),
        long => vec![0, chance.between(1, 9), chance.between(10, long.min(usize::from(u16::MAX)))],
    };
    blocks.into_iter().map(|block| Case { text, block: block as u16, room: room(chance) }).collect()
}

/// The text in blocks of one length.
pub fn cut<'t>(chance: &mut Chance, text: &'t [u8]) -> Case<'t> {
    let block = *chance.pick(&[0, 0, 1, 1, 2, 3, 5, 16]);
    Case { text, block, room: room(chance) }
}

fn room(chance: &mut Chance) -> u16 {
    *chance.pick(&[LEAST_ROOM, LEAST_ROOM, 3, 7, 64, u16::MAX])
}

/// What a reader answered to a batch, by the numbers of its refusals, and the first cases in which it must answer something else.
#[derive(Debug, Default)]
pub struct Judged<'t> {
    pub cases: usize,
    pub records: usize,
    /// How many cases got each refusal, 0 for none.
    pub refusals: BTreeMap<u8, usize>,
    pub wrong: usize,
    pub first: Vec<Wrong<'t>>,
}

/// A case that is answered wrongly.
#[derive(Debug)]
pub struct Wrong<'t> {
    /// From 1.
    pub number: usize,
    pub case: Case<'t>,
    pub must: Vec<u8>,
    pub came: Vec<u8>,
}

/// How many of them are kept.
const FIRST: usize = 5;

/// Compares the answers to all cases of a batch, which end to end are `output`, with what must be answered.
pub fn judge<'t>(batch: &'t [u8], names: &Names, output: &[u8]) -> Judged<'t> {
    let (mut judged, mut rest) = (Judged::default(), output);
    for (number, case) in (1..).zip(cases(batch)) {
        let must = answer(case.text, names);
        let came;
        (came, rest) = rest.split_at(answer_length(rest));
        judged.cases += 1;
        judged.records += must.len() / RECORD - 1;
        *judged.refusals.entry(must[must.len() - RECORD + 1]).or_default() += 1;
        judged.wrong += usize::from(came != must);
        if came != must && judged.first.len() < FIRST {
            judged.first.push(Wrong { number, case, must, came: came.to_vec() });
        }
    }
    judged.wrong += usize::from(!rest.is_empty());
    judged
}

/// How many bytes the first answer has; all, if none is closed.
fn answer_length(output: &[u8]) -> usize {
    let records = output.chunks(RECORD).position(|record| record[0] == CLOSING).map(|place| place + 1);
    records.map_or(output.len(), |records| output.len().min(records * RECORD))
}
