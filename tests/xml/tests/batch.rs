//! A batch is read as it is written, and only the right answers to it are taken for right.

use random::chance::Chance;
use second::xml::batch::{answer, cases, Case};
use second::xml::names::Names;
use xml::batch::{cut, cuts, judge};
use xml::cases::{damaged, documents};
use xml::words;

fn texts() -> Vec<Vec<u8>> {
    let texts = documents(5).take(200).map(|case| case.text);
    texts.chain(damaged(5).take(200).map(|(_, case)| case.text)).chain([vec![]]).collect()
}

fn batch(cases: &[Case]) -> Vec<u8> {
    let mut batch = Vec::new();
    cases.iter().for_each(|case| case.write(&mut batch));
    batch
}

#[test]
fn is_read_as_it_is_written() {
    let (texts, mut chance) = (texts(), Chance::new(1, 1));
    let written: Vec<Case> =
        texts.iter().flat_map(|text| [vec![cut(&mut chance, text)], cuts(&mut chance, text)].concat()).collect();
    assert_eq!(cases(&batch(&written)).collect::<Vec<_>>(), written);
}

#[test]
fn of_one_case() {
    let case = Case { text: b"<a/>", block: 258, room: 3 };
    assert_eq!(batch(&[case]), b"\0\0\0\x04\x01\x02\0\x03<a/>");
    let names = Names::read(b"b\na\n").expect("all are names");
    assert_eq!(answer(case.text, &names), b"\x01\0\0\x02\0\0\0\0\x02\0\0\x02\0\0\0\0\xff\0\0\0\0\0\0\0");
    assert_eq!(answer(b"<a><>", &names), b"\x01\0\0\x02\0\0\0\0\xff\x1e\0\0\0\0\0\x05");
}

#[test]
fn short_texts_are_cut_at_every_place() {
    let mut chance = Chance::new(1, 1);
    let blocks: Vec<u16> = cuts(&mut chance, b"<a/>").iter().map(|case| case.block).collect();
    assert_eq!(blocks, [0, 1, 2, 3, 4]);
}

#[test]
fn wrong_answers_are_found() {
    let list = words::list();
    let names = Names::read(&list).expect("the list is in order");
    let texts = texts();
    let written: Vec<Case> = texts.iter().map(|text| Case::whole(text)).collect();
    let batch = batch(&written);
    let right: Vec<u8> = written.iter().flat_map(|case| answer(case.text, &names)).collect();
    assert_eq!(judge(&batch, &names, &right).wrong, 0);
    assert_eq!(judge(&batch, &names, &[]).wrong, written.len());
    for wrong in [[&right[..], &[0]].concat(), [&right[..], &right].concat(), right[..right.len() - 1].to_vec()] {
        assert_eq!(judge(&batch, &names, &wrong).wrong, 1);
    }
    for place in (0..right.len()).step_by(997) {
        let mut wrong = right.clone();
        wrong[place] ^= 1;
        assert!(judge(&batch, &names, &wrong).wrong > 0, "byte {place}");
    }
}
