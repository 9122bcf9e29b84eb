//! The sheet's lines: of the vectors, and beside the proved program on random damage.
mod common;

use chamanzil::{BLOCK_STREAM, MAIN};
use common::cells::sheet_line;
use common::damage::{lose_zeros, overwrite_rows, scratch, some_rows, spot_rows, With};
use common::streams::{block_part, image, run_of, scrambled_to_zeros, Numbers};
use common::{fed, in_repository, Folder};
use std::fs;

fn vector(folder: &str, name: &str) -> Vec<u8> {
    fs::read(in_repository("tests/data/vectors").join(folder).join(name)).unwrap()
}

/// The lines of a table of tests/data/vectors, cell by cell.
fn table(folder: &str) -> Vec<Vec<String>> {
    let text = String::from_utf8(vector(folder, "sheets.tsv")).unwrap();
    let cells = |line: &str| line.split('\t').map(String::from).collect();
    text.lines().map(cells).collect()
}

/// Lines as the sheet has them, with its status.
#[track_caller]
fn sheet_is(stream: &[u8], due: &[String]) {
    let folder = Folder::with(&[("stream", stream)]);
    let is_refused = due.iter().any(|line| line.starts_with("refused"));
    let ended = folder
        .run("sheet stream")
        .with_status(i32::from(is_refused));
    assert_eq!(ended.text().lines().collect::<Vec<_>>(), due);
    assert!(ended.text().ends_with('\n'));
    // each refusal is said on standard error too, and nothing else
    let refused = due.iter().filter(|line| line.starts_with("refused"));
    assert_eq!(ended.lines().len(), refused.clone().count());
    for (line, start) in ended.lines().iter().zip(refused) {
        assert!(line.starts_with(&format!("{start}: ")), "{line}");
    }
    assert_eq!(folder.names(), ["stream"]);
}

#[test]
fn vectors_of_damaged_blocks() {
    let table = table("damaged");
    assert_eq!(table.len(), 12);
    for line in table {
        let [name, due] = &line[..] else {
            panic!("{line:?}")
        };
        let stream = vector("damaged", &format!("{name}.stream"));
        // one byte more than a block is a block and the start of another, which is the one that is refused
        let whole = (name == "long").then(|| sheet_line(block_part(&stream, 0)).0);
        let due: Vec<String> = whole.into_iter().chain([due.clone()]).collect();
        sheet_is(&stream, &due);
    }
}

#[test]
fn vectors_of_runs() {
    let table = table("run");
    assert_eq!(table.len(), 9);
    for name in ["run.stream", "run.rstream", "run.damaged"] {
        let lines = table.iter().filter(|line| line[0] == name);
        let due: Vec<String> = lines.clone().map(|line| line[2].clone()).collect();
        let places: Vec<&str> = lines.map(|line| &line[1][..]).collect();
        assert_eq!(places, ["0", "1", "2"]);
        sheet_is(&vector("run", name), &due);
    }
}

/// The sheet passes the sector reader's marks, and does not try without: what `recover` reads without them is refused here.
#[test]
fn there_is_no_second_try() {
    let mut stream = run_of(&scrambled_to_zeros(0x03_0000), 0x03_0000, 0);
    lose_zeros(&mut stream, 0, 3);
    sheet_is(&stream, &["refused 6 frame 3".to_string()]);
    let folder = Folder::with(&[("stream", &stream)]);
    folder.run("recover stream -o image").done();
}

/// A run with every kind of damage: none, light, as much as a block stands, a row more or less, and everything lost.
fn damaged_run(seed: u64, blocks: usize) -> Vec<u8> {
    let mut numbers = Numbers::new(seed);
    let mut stream = run_of(&image(seed, blocks * MAIN), 0x02_FF00, 0x2D);
    for k in 0..blocks {
        match numbers.below(6) {
            0 => {}
            1 => spot_rows(&mut numbers, &mut stream, k),
            2 => scratch(&mut numbers, &mut stream, k),
            3 => {
                let count = 7 + numbers.below(4);
                let rows = some_rows(&mut numbers, count);
                let with = With::either(&mut numbers);
                overwrite_rows(&mut numbers, &mut stream, k, &rows, with);
            }
            4 => flip_bits(
                &mut numbers,
                &mut stream[k * BLOCK_STREAM..][..BLOCK_STREAM],
            ),
            _ => {
                let lost = numbers.bytes(BLOCK_STREAM);
                stream[k * BLOCK_STREAM..][..BLOCK_STREAM].copy_from_slice(&lost);
            }
        }
    }
    stream
}

/// Bits anywhere, about as many as a block stands or not.
fn flip_bits(numbers: &mut Numbers, part: &mut [u8]) {
    for _ in 0..400 + numbers.below(1_200) {
        part[numbers.below(BLOCK_STREAM)] ^= 1 << numbers.below(8);
    }
}

#[test]
fn beside_the_proved_program() {
    const BLOCKS: usize = 80;
    let program = in_repository("crates/sheet/out/sheet");
    assert!(
        program.exists(),
        "no {}: run rt run in crates/sheet",
        program.display()
    );
    let stream = damaged_run(110, BLOCKS);
    let folder = Folder::with(&[("stream", &stream)]);
    let ended = folder.run("sheet stream").with_status(1);
    let lines: Vec<&str> = ended.text().lines().collect();
    assert_eq!(lines.len(), BLOCKS);
    for (k, line) in lines.iter().enumerate() {
        let mut proved = folder.program(program.to_str().unwrap(), &[]);
        let part = block_part(&stream, k);
        let due = fed(&mut proved, part, part.len());
        assert_eq!(due.text(), format!("{line}\n"), "block {k}");
    }
    // both kinds are there
    let refused = lines
        .iter()
        .filter(|line| line.starts_with("refused"))
        .count();
    assert!((10..BLOCKS - 20).contains(&refused), "{refused} refused");
}
