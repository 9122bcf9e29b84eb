//! What `recover` hands out of damaged runs: scratched ones whole, blocks that are only read without marks, refused blocks as zeros where asked, lengths, the
//! sheet, jumps in the numbers.
mod common;

use chamanzil::{repair_block, Refusal, Repaired, BLOCK_STREAM, MAIN};
use common::cells::{by_sectors, sheet_line};
use common::damage::{half_of, lose_zeros, overwrite_rows, scratch, set_half, some_rows};
use common::damage::{With, NO_WORD};
use common::streams::{block_of, block_part, blocks_of, frame_place, image, run_of};
use common::streams::{run_of_blocks, scrambled_to_zeros, with_parity, Block, Numbers, FRAME_EDC};
use common::{in_repository, Folder};
use std::fs;

fn vector(name: &str) -> Vec<u8> {
    fs::read(in_repository("tests/data/vectors/run").join(name)).unwrap()
}

/// The lines of run.damaged in tests/data/vectors/run/sheets.tsv.
const DAMAGED_SHEET: &str = "block 02FFE0 rows 187 8 columns 172 0 unknown 1656 sync 205\n\
                             refused 6 frame 0\n\
                             block 030000 rows 202 0 columns 0 0 unknown 604 sync 202\n";
const DAMAGED_REFUSAL: &str = "refused 6 frame 0: the frame's EDC differs (block 1)";
/// Its sums over the blocks that were read.
const DAMAGED_SUMMARY: &str = "blocks 3 refused 1 rows 389 8 columns 172 0 unknown 2260 sync 407";

/// The image of a run of which one block is refused.
fn with_zeros(mut image: Vec<u8>, block: usize) -> Vec<u8> {
    image[block * MAIN..][..MAIN].fill(0);
    image
}

#[test]
fn keep_going_leaves_zeros_and_says_so() {
    let folder = Folder::with(&[("stream", &vector("run.damaged"))]);
    let ended = folder
        .run("recover stream -o image --sheet lines --keep-going")
        .with_status(1);
    // block 2 has the number that follows from block 0, so that nothing is said of it
    let ended = ended.said(&[DAMAGED_REFUSAL, DAMAGED_SUMMARY]);
    assert_eq!(ended.out.len(), 0);
    assert!(folder.read("image") == with_zeros(vector("run.main"), 1));
    assert_eq!(folder.read("lines"), DAMAGED_SHEET.as_bytes());
    assert_eq!(folder.names(), ["image", "lines", "stream"]);

    let ended = folder
        .run("recover stream -o - --keep-going")
        .with_status(1);
    assert!(ended.out == with_zeros(vector("run.main"), 1));
    let ended = folder
        .run("recover stream -o image --keep-going --sheet -")
        .with_status(1);
    assert_eq!(ended.text(), DAMAGED_SHEET);
}

#[test]
fn keep_going_without_a_refused_block() {
    let folder = Folder::with(&[("stream", &vector("run.stream"))]);
    let summary = "blocks 3 refused 0 rows 0 0 columns 0 0 unknown 0 sync 0";
    folder
        .run("recover stream -o image --keep-going")
        .done()
        .said(&[summary]);
    assert!(folder.read("image") == vector("run.main"));
}

#[test]
fn without_keep_going_nothing_is_there() {
    let folder = Folder::with(&[("stream", &vector("run.damaged"))]);
    folder
        .run("recover stream -o image --sheet lines")
        .refused(DAMAGED_REFUSAL);
    folder
        .run("recover stream -o - --sheet lines")
        .refused(DAMAGED_REFUSAL);
    // also where what is asked for ends before the refused block
    folder
        .run("recover stream -o image --length 32768")
        .refused(DAMAGED_REFUSAL);
    assert_eq!(folder.names(), ["stream"]);
}

/// Another writer's choices, and any other permitted ones, are read as well.
#[test]
fn the_run_with_other_choices() {
    let folder = Folder::with(&[("stream", &vector("run.rstream"))]);
    folder.run("recover stream -o image").done();
    assert!(folder.read("image") == vector("run.main"));
}

#[test]
fn eight_heavy_rows_in_each_block_are_recovered() {
    const BLOCKS: usize = 12;
    let (main, mut numbers) = (image(90, BLOCKS * MAIN), Numbers::new(91));
    let mut stream = run_of(&main, 0x03_0000, 0);
    (0..BLOCKS).for_each(|k| scratch(&mut numbers, &mut stream, k));
    let folder = Folder::with(&[("stream", &stream)]);
    let ended = folder.run("recover stream -o image --sheet lines").done();
    assert!(folder.read("image") == main);
    let lines = String::from_utf8(folder.read("lines")).unwrap();
    let rows: Vec<(u32, u32)> = lines.lines().map(rows_of).collect();
    assert_eq!(rows.len(), BLOCKS);
    // an overwritten row with a few marks can lie near another code row, and then counts as changed
    let is_due = |(changed, past_help): &(u32, u32)| changed + past_help == 208 && *past_help <= 8;
    assert!(rows.iter().all(is_due), "{lines}");
    assert!(rows.contains(&(200, 8)), "{lines}");
    assert_eq!(ended.lines(), [summary_of(&lines)]);
}

/// The rows changed and past help of a sheet's line.
fn rows_of(line: &str) -> (u32, u32) {
    let words: Vec<&str> = line.split(' ').collect();
    (words[3].parse().unwrap(), words[4].parse().unwrap())
}

/// The summary that follows from a sheet's lines.
fn summary_of(lines: &str) -> String {
    let read: Vec<Vec<&str>> = lines
        .lines()
        .map(|line| line.split(' ').collect())
        .collect();
    let refused = read.iter().filter(|words| words[0] == "refused").count();
    let sum = |place: usize| -> u32 {
        let blocks = read.iter().filter(|words| words[0] == "block");
        blocks
            .map(|words| words[place].parse::<u32>().unwrap())
            .sum()
    };
    format!(
        "blocks {} refused {refused} rows {} {} columns {} {} unknown {} sync {}",
        read.len(),
        sum(3),
        sum(4),
        sum(6),
        sum(7),
        sum(9),
        sum(11)
    )
}

/// Rows of which nothing is left are read as zeros.
#[test]
fn eight_lost_rows_in_each_block_are_recovered() {
    const BLOCKS: usize = 12;
    let (main, mut numbers) = (image(96, BLOCKS * MAIN), Numbers::new(97));
    let mut stream = run_of(&main, 0x03_0000, 0);
    for k in 0..BLOCKS {
        let rows = some_rows(&mut numbers, 8);
        overwrite_rows(&mut numbers, &mut stream, k, &rows, With::Noise);
    }
    let folder = Folder::with(&[("stream", &stream)]);
    folder.run("recover stream -o image").done();
    assert!(folder.read("image") == main);
}

/// Ten words of each row lost, which their marks bring back.
#[test]
fn ten_lost_words_in_each_row_are_recovered() {
    const BLOCKS: usize = 3;
    let main = image(98, BLOCKS * MAIN);
    let mut stream = run_of(&main, 0x03_0000, 0);
    for part in stream.chunks_exact_mut(BLOCK_STREAM) {
        for row in 0..208 {
            // the word before place 0 is a SYNC Code's, so that no other byte is touched
            (0..10).for_each(|place| set_half(part, half_of(row, place), NO_WORD));
        }
    }
    let folder = Folder::with(&[("stream", &stream)]);
    folder
        .run("recover stream -o image --strict")
        .done()
        .said(&["blocks 3 refused 0 rows 624 0 columns 0 0 unknown 6240 sync 0"]);
    assert!(folder.read("image") == main);
}

/// A run of three blocks of main data that are zeros once scrambled, from number 030000.
fn zero_run() -> Vec<u8> {
    let numbers = [0x03_0000, 0x03_0010, 0x03_0020];
    numbers.into_iter().flat_map(scrambled_to_zeros).collect()
}

/// Block k as it is read without marks, and how many bytes of it are marked.
fn without_marks(stream: &[u8], k: usize) -> (Result<Repaired, Refusal>, u32) {
    let (mut block, mut erasures) = by_sectors(block_part(stream, k));
    let marks = erasures.iter().map(|mark| u32::from(*mark)).sum();
    erasures.fill(0);
    (repair_block(&mut block, &erasures), marks)
}

/// The sheet's line of block k as it is read without marks.
fn line_without_marks(stream: &[u8], k: usize) -> String {
    let (read, unknown) = without_marks(stream, k);
    let read = read.unwrap();
    let (rows, columns) = (read.rows, read.columns);
    format!(
        "block {:06X} rows {} {} columns {} {} unknown {unknown} sync 0",
        read.first, rows.changed, rows.past_help, columns.changed, columns.past_help,
    )
}

/// Blocks 0 and 2 are refused with their marks and read without: handed out, said, counted, and in the sheet as they were read.
#[test]
fn a_block_is_read_without_marks_where_it_is_refused_with_them() {
    let main = zero_run();
    let mut stream = run_of(&main, 0x03_0000, 0);
    lose_zeros(&mut stream, 0, 5);
    lose_zeros(&mut stream, 2, 15);
    let folder = Folder::with(&[("stream", &stream)]);
    let ended = folder.run("recover stream -o image --sheet lines").done();
    assert!(folder.read("image") == main);
    let lines = String::from_utf8(folder.read("lines")).unwrap();
    let clean = "block 030010 rows 0 0 columns 0 0 unknown 0 sync 0".to_string();
    let due = [
        line_without_marks(&stream, 0),
        clean,
        line_without_marks(&stream, 2),
    ];
    assert_eq!(lines.lines().collect::<Vec<_>>(), due);
    assert!(due[0].starts_with("block 030000 rows 9 0 columns 0 0 unknown "));
    ended.said(&[
        "block 0 is read without marks: refused 6 frame 5 with them",
        "block 2 is read without marks: refused 6 frame 15 with them",
        &format!("{} unmarked 2", summary_of(&lines)),
    ]);
    let ended = folder.run("recover stream -o - --length 32768").done();
    assert!(ended.out == main[..MAIN]);
}

/// With `--strict` there is no second try.
#[test]
fn strict_forbids_the_second_try() {
    let main = zero_run();
    let mut stream = run_of(&main, 0x03_0000, 0);
    lose_zeros(&mut stream, 1, 7);
    let folder = Folder::with(&[("stream", &stream)]);
    let refusal = "refused 6 frame 7: the frame's EDC differs (block 1)";
    for output in ["image", "-"] {
        folder
            .run(&format!(
                "recover stream -o {output} --sheet lines --strict"
            ))
            .refused(refusal)
            .said(&[refusal]);
    }
    assert_eq!(folder.names(), ["stream"]);

    let ended = folder
        .run("recover stream -o image --sheet lines --strict --keep-going")
        .with_status(1);
    assert!(folder.read("image") == with_zeros(main.clone(), 1));
    let lines = String::from_utf8(folder.read("lines")).unwrap();
    assert_eq!(lines.lines().nth(1), Some("refused 6 frame 7"));
    ended.said(&[refusal, &summary_of(&lines)]);

    // what --keep-going does not need it does not use
    folder.run("recover stream -o image --keep-going").done();
    assert!(folder.read("image") == main);
}

/// Frame 12 is refused without marks, frame 7 with them: the number is that of the try with marks.
#[test]
fn a_block_that_is_refused_both_ways() {
    let main = zero_run();
    let mut blocks = blocks_of(&main, 0x03_0000);
    blocks[1][frame_place(12, FRAME_EDC)] ^= 1;
    with_parity(&mut blocks[1]);
    let mut stream = run_of_blocks(&blocks);
    lose_zeros(&mut stream, 1, 7);
    let without = without_marks(&stream, 1).0.unwrap_err();
    assert_eq!((without.number(), without.frame()), (6, Some(12)));

    let folder = Folder::with(&[("stream", &stream)]);
    let refusal = "refused 6 frame 7: the frame's EDC differs (block 1)";
    folder
        .run("recover stream -o image --sheet lines")
        .refused(refusal)
        .said(&[refusal]);
    assert_eq!(folder.names(), ["stream"]);
    folder
        .run("recover stream -o image --sheet lines --keep-going")
        .refused(refusal);
    assert!(folder.read("image") == with_zeros(main, 1));
    let lines = String::from_utf8(folder.read("lines")).unwrap();
    assert_eq!(lines.lines().nth(1), Some("refused 6 frame 7"));
}

/// Marks are tried first: a block that is read both ways is read with them.
#[test]
fn a_block_that_is_read_both_ways() {
    let stream = fs::read(in_repository(
        "tests/data/vectors/damaged/burst20000.stream",
    ));
    let stream = stream.unwrap();
    let (with, _) = sheet_line(block_part(&stream, 0));
    let without = without_marks(&stream, 0).0.unwrap();
    assert_eq!((without.rows.changed, without.rows.past_help), (6, 2));
    let folder = Folder::with(&[("stream", &stream)]);
    folder
        .run("recover stream -o image --sheet lines")
        .done()
        .said(&[&summary_of(&with)]);
    assert!(folder.read("image") == *without.main);
    assert_eq!(folder.read("lines"), format!("{with}\n").as_bytes());
    assert_eq!(
        with,
        "block 000000 rows 0 8 columns 172 0 unknown 1210 sync 13"
    );
}

/// A long run of which every fifth block is past help: each stands in its own place.
#[test]
fn many_blocks_keep_their_places() {
    const BLOCKS: usize = 40;
    let (mut main, mut numbers) = (image(92, BLOCKS * MAIN), Numbers::new(93));
    let mut stream = run_of(&main, 0x03_0000, 0);
    for k in (0..BLOCKS).filter(|k| k % 5 == 2) {
        let rows = some_rows(&mut numbers, 40);
        overwrite_rows(&mut numbers, &mut stream, k, &rows, With::Noise);
        main = with_zeros(main, k);
    }
    let folder = Folder::with(&[("stream", &stream)]);
    let ended = folder
        .run("recover stream -o image --sheet lines --keep-going")
        .with_status(1);
    assert!(folder.read("image") == main);
    let refused: Vec<&str> = ended
        .lines()
        .into_iter()
        .filter(|l| l.starts_with("refused 6 frame "))
        .collect();
    assert_eq!(refused.len(), 8);
    for (line, k) in refused.iter().zip((2..).step_by(5)) {
        assert!(
            line.ends_with(&format!(": the frame's EDC differs (block {k})")),
            "{line}"
        );
    }
    let sheet = folder.run("sheet stream").with_status(1);
    assert_eq!(sheet.text().as_bytes(), folder.read("lines"));
    assert_eq!(ended.lines().last(), Some(&&summary_of(sheet.text())[..]));
}

#[test]
fn lengths_at_the_edges_of_blocks() {
    let main = vector("run.main");
    let folder = Folder::with(&[("stream", &vector("run.stream"))]);
    for length in [0, 1, 32_767, 32_768, 32_769, 65_536, 98_303, 98_304] {
        folder
            .run(&format!(
                "recover stream -o image --sheet lines --length {length}"
            ))
            .done();
        assert!(folder.read("image") == main[..length], "{length}");
        // the sheet is of the whole run
        let lines = String::from_utf8(folder.read("lines")).unwrap();
        assert_eq!(lines.lines().count(), 3);
        let ended = folder
            .run(&format!("recover stream -o - --length {length}"))
            .done();
        assert!(ended.out == main[..length], "{length}");
    }
}

#[test]
fn a_length_that_is_too_long() {
    let folder = Folder::with(&[("stream", &vector("run.stream")), ("old", b"old")]);
    for length in ["98305", "99999", "18446744073709551615"] {
        let line = format!("refused 1: --length {length}, where the blocks have 98304 bytes");
        for output in ["image", "old", "-"] {
            folder
                .run(&format!("recover stream -o {output} --length {length}"))
                .refused(&line);
        }
        folder
            .run(&format!(
                "recover stream -o image --sheet lines --length {length}"
            ))
            .refused(&line);
    }
    assert_eq!(folder.names(), ["old", "stream"]);
    assert_eq!(folder.read("old"), b"old");
}

/// Blocks with these numbers, whatever comes before them.
fn numbered(main: &[u8], numbers: &[u32]) -> Vec<Block> {
    let mains = main.chunks_exact(MAIN);
    mains
        .zip(numbers)
        .map(|(main, first)| block_of(main, *first, 0))
        .collect()
}

#[test]
fn a_jump_in_the_numbers_is_said() {
    let main = image(94, 5 * MAIN);
    let numbers = [0x03_0000, 0x03_0010, 0x03_0100, 0x03_0110, 0x03_0110];
    let folder = Folder::with(&[("stream", &run_of_blocks(&numbered(&main, &numbers)))]);
    folder.run("recover stream -o image").done().said(&[
        "block 2 has number 030100, where 030020 follows",
        "block 4 has number 030110, where 030120 follows",
        "blocks 5 refused 0 rows 0 0 columns 0 0 unknown 0 sync 0",
    ]);
    assert!(folder.read("image") == main);
}

/// What follows is counted from the last block that was read, over those that were refused.
#[test]
fn a_jump_over_a_refused_block() {
    let main = image(95, 4 * MAIN);
    let numbers = [0x03_0000, 0x03_0010, 0x03_0030, 0x03_0040];
    let mut stream = run_of_blocks(&numbered(&main, &numbers));
    stream[BLOCK_STREAM + 8..2 * BLOCK_STREAM - 8].fill(0x24);
    let folder = Folder::with(&[("stream", &stream)]);
    let ended = folder
        .run("recover stream -o image --keep-going")
        .with_status(1);
    assert_eq!(
        ended.times("block 2 has number 030030, where 030020 follows"),
        1
    );
    assert_eq!(ended.err.matches("follows").count(), 1, "{}", ended.err);
    assert!(folder.read("image") == with_zeros(main, 1));
}
