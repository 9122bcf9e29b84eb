//! Writes the cases of crates/trials/data that are made here and not copied from the vectors: `chamanzil-tests --trial-data FOLDER`.
use crate::codes_test::between_two;
use crate::random::Random;
use crate::rs::{Code, Fate};
use std::io;
use std::path::Path;

/// A code row, the row as read, and the row that the rule makes of it without marks.
fn row_case(code: &Code, sent: &[u8], read: &[u8], fate: Fate) -> Vec<u8> {
    let mut due = read.to_vec();
    assert_eq!(code.repair_erased(&mut due, &[0; 182]), fate);
    [sent, read, &due].concat()
}

fn with_wrong(random: &mut Random, sent: &[u8], places: &[usize]) -> Vec<u8> {
    let mut read = sent.to_vec();
    for &at in places {
        read[at] ^= 1 + random.below(255) as u8;
    }
    read
}

/// Trial 13: rows with up to five wrong bytes, then rows with six or more.
fn trial13() -> Vec<u8> {
    let code = Code::row();
    let mut random = Random::new(13);
    let mut cases = Vec::new();
    let places = [
        vec![],
        vec![181],
        vec![0, 1, 2, 3, 4],
        vec![172, 174, 176, 178, 181],
        random.places(182, 5),
    ];
    for at in places {
        let sent = code.random_code_word(&mut random);
        let read = with_wrong(&mut random, &sent, &at);
        let fate = if at.is_empty() { Fate::Unchanged } else { Fate::Changed };
        cases.extend(row_case(&code, &sent, &read, fate));
    }
    for wrong in [6, 60] {
        let sent = code.random_code_word(&mut random);
        let at = random.places(182, wrong);
        let read = with_wrong(&mut random, &sent, &at);
        cases.extend(row_case(&code, &sent, &read, Fate::PastHelp));
    }
    let between = between_two(&code, &mut random, 0, 6);
    let case = row_case(&code, &between.right, &between.word, Fate::Changed);
    assert!(case.ends_with(&between.other));
    cases.extend(case);
    cases
}

pub fn write(folder: &Path) -> io::Result<()> {
    std::fs::write(folder.join("trial13"), trial13())
}
