//! `check`: a good run, and every kind of fault alone: zero runs in a block and at a seam, each SYNC place, the closing code.
mod common;

use chamanzil::{zero_runs_hold, BLOCK_STREAM, CLOSING, MAIN, SECTOR_STREAM};
use common::damage::{half_at, half_of, set_half, FRAME_HALVES};
use common::streams::{block_part, image, run_of};
use common::{in_repository, Folder};
use std::fs;

const BLOCKS: usize = 3;
const GOOD: &str = "blocks 3 sectors 48: lengths, zero runs and SYNC Codes hold\n";
const NO_CLOSING: &str = "the closing code is none of SY0's";
/// Every second half of a SYNC Code.
const SYNC_END: u16 = 0x0011;
/// Half words of a sector.
const SECTOR_HALVES: usize = SECTOR_STREAM / 2;
/// Half words of a block.
const BLOCK_HALVES: usize = BLOCK_STREAM / 2;

fn run() -> Vec<u8> {
    run_of(&image(120, BLOCKS * MAIN), 0x03_0000, 0)
}

/// The first halves of the SYNC Codes by their numbers, four each, from table 4.
fn sync_codes() -> [Vec<u16>; 8] {
    let text = fs::read_to_string(in_repository("data/tables.tsv")).unwrap();
    std::array::from_fn(|number| {
        let start = format!("4\tSY{number}\t");
        let lines = text.lines().filter(|line| line.starts_with(&start));
        let codes = lines.flat_map(|line| line.split('\t').skip(3));
        codes
            .map(|code| u16::from_str_radix(&code[..16], 2).unwrap())
            .collect()
    })
}

fn zero_runs_line(block: usize) -> String {
    format!("block {block}: runs of ZEROs that a stream may not have")
}

/// The blocks whose zero runs do not hold, by the library.
fn broken_blocks(stream: &[u8]) -> Vec<usize> {
    let is_broken = |k: &usize| !zero_runs_hold(block_part(stream, *k));
    (0..BLOCKS).filter(is_broken).collect()
}

#[track_caller]
fn check_is_bad(stream: &[u8], lines: &[&str]) {
    let folder = Folder::with(&[("stream", stream)]);
    let ended = folder.run("check stream").with_status(1).said(lines);
    assert_eq!(ended.out.len(), 0);
    assert_eq!(folder.names(), ["stream"]);
}

#[track_caller]
fn check_is_good(stream: &[u8], line: &str) {
    let folder = Folder::with(&[("stream", stream)]);
    let ended = folder.run("check stream").done().said(&[]);
    assert_eq!(ended.text(), line);
}

#[test]
fn good_runs() {
    check_is_good(&run(), GOOD);
    let one = run_of(&image(121, MAIN), 0xFF_FFF0, 0x2D);
    check_is_good(
        &one,
        "blocks 1 sectors 16: lengths, zero runs and SYNC Codes hold\n",
    );
    // another writer's choices
    let other = in_repository("tests/data/vectors/run/run.rstream");
    check_is_good(&fs::read(other).unwrap(), GOOD);
}

/// Code Words that are in no table or give another byte are no fault here, as long as the zero runs hold: the recorder does not read them.
#[test]
fn another_word_that_holds_is_no_fault() {
    let mut stream = run();
    let half = half_of(100, 50);
    let before = half_at(&stream, half);
    let other = (0..=u16::MAX).find(|word| {
        set_half(&mut stream, half, *word);
        *word != before && zero_runs_hold(block_part(&stream, 0))
    });
    assert!(other.is_some());
    check_is_good(&stream, GOOD);
}

/// A ONE beside a ONE, in a Code Word of each block in turn, and of two.
#[test]
fn a_flipped_bit_in_mid_block() {
    for broken in [vec![0], vec![1], vec![2], vec![0, 2]] {
        let mut stream = run();
        for block in &broken {
            let half = block * BLOCK_HALVES + half_of(77, 33);
            let word = half_at(&stream, half);
            let lowest = word & word.wrapping_neg();
            set_half(&mut stream, half, word | lowest << 1 | lowest >> 1);
        }
        assert_eq!(broken_blocks(&stream), broken);
        let lines: Vec<String> = broken.iter().map(|block| zero_runs_line(*block)).collect();
        check_is_bad(
            &stream,
            &lines.iter().map(|line| &line[..]).collect::<Vec<_>>(),
        );
    }
}

/// The last word of a block, such that only the run of ZEROs into the SYNC Code after it breaks.
fn break_seam(stream: &mut [u8], block: usize) {
    let last = (block + 1) * BLOCK_HALVES - 1;
    let breaks_only_the_seam = |word: &u16| {
        set_half(stream, last, *word);
        let part = block_part(stream, block);
        zero_runs_hold(&part[..BLOCK_STREAM]) && !zero_runs_hold(part)
    };
    assert!((0..=u16::MAX).find(breaks_only_the_seam).is_some());
}

#[test]
fn a_broken_seam() {
    for block in 0..BLOCKS {
        let mut stream = run();
        break_seam(&mut stream, block);
        assert_eq!(broken_blocks(&stream), [block]);
        check_is_bad(&stream, &[&zero_runs_line(block)]);
    }
}

/// Puts another number's SYNC Code into a place, one with which the zero runs hold, and says whether there is one.
fn put_another_code(stream: &mut [u8], half: usize, codes: &[Vec<u16>; 8]) -> bool {
    let before = half_at(stream, half);
    let due = codes
        .iter()
        .position(|four| four.contains(&before))
        .unwrap();
    let others = (0..8)
        .filter(|number| *number != due)
        .flat_map(|number| &codes[number]);
    others.into_iter().any(|code| {
        set_half(stream, half, *code);
        broken_blocks(stream).is_empty()
    })
}

fn one_sync_line(block: usize, sector: usize) -> String {
    format!("block {block} sector {sector}: 1 SYNC place holds none of the codes due there")
}

/// Each of a sector's 26 SYNC places has another number's code, in another block and sector each.
#[test]
fn each_sync_place_with_a_code_not_due_there() {
    let codes = sync_codes();
    for frame in 0..26 {
        let (block, sector) = (frame % BLOCKS, frame % 16);
        let mut stream = run();
        let half = block * BLOCK_HALVES + sector * SECTOR_HALVES + frame * FRAME_HALVES;
        assert_eq!(half_at(&stream, half + 1), SYNC_END);
        assert!(put_another_code(&mut stream, half, &codes), "frame {frame}");
        check_is_bad(&stream, &[&one_sync_line(block, sector)]);
    }
}

/// The second half of a SYNC Code counts as well as the first.
#[test]
fn the_second_half_of_a_sync_code() {
    let mut stream = run();
    let half = BLOCK_HALVES + 5 * SECTOR_HALVES + 7 * FRAME_HALVES + 1;
    set_half(&mut stream, half, 0x0021);
    // twelve ZEROs in its middle are one too few
    assert_eq!(broken_blocks(&stream), [1]);
    check_is_bad(&stream, &[&zero_runs_line(1), &one_sync_line(1, 5)]);
}

#[test]
fn several_sync_places_are_counted() {
    let codes = sync_codes();
    let mut stream = run();
    for (block, sector, frame) in [
        (1, 5, 0),
        (1, 5, 25),
        (1, 15, 3),
        (2, 0, 0),
        (2, 0, 1),
        (2, 0, 2),
    ] {
        let half = block * BLOCK_HALVES + sector * SECTOR_HALVES + frame * FRAME_HALVES;
        assert!(put_another_code(&mut stream, half, &codes));
    }
    check_is_bad(
        &stream,
        &[
            "block 1 sector 5: 2 SYNC places hold none of the codes due there",
            "block 1 sector 15: 1 SYNC place holds none of the codes due there",
            "block 2 sector 0: 3 SYNC places hold none of the codes due there",
        ],
    );
}

/// Each code of table 4 at the end: SY0's four are closing codes, and no other is.
#[test]
fn the_closing_code() {
    for (number, codes) in sync_codes().iter().enumerate() {
        assert_eq!(codes.len(), 4);
        for code in codes {
            let mut stream = run();
            set_half(&mut stream, BLOCKS * BLOCK_HALVES, *code);
            // a code of the other class may break the seam, which is a fault of its own
            let broken = broken_blocks(&stream).into_iter();
            let mut lines: Vec<String> = broken.map(zero_runs_line).collect();
            lines.extend((number != 0).then(|| NO_CLOSING.to_string()));
            if lines.is_empty() {
                check_is_good(&stream, GOOD);
            } else {
                let lines: Vec<&str> = lines.iter().map(|line| &line[..]).collect();
                check_is_bad(&stream, &lines);
            }
        }
    }
}

/// The second half counts as well as the first.
#[test]
fn the_second_half_of_the_closing_code() {
    let mut stream = run();
    let end = stream.len() - CLOSING;
    assert_eq!(half_at(&stream[end..], 1), SYNC_END);
    set_half(&mut stream[end..], 1, 0b0010_0100_1001_0010);
    assert_eq!(broken_blocks(&stream).len(), 0);
    check_is_bad(&stream, &[NO_CLOSING]);
}
