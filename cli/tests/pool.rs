//! What `pool` hands out of two streams of one run: blocks that neither stream gives alone, in either order; lengths, refused blocks, streams of different lengths,
//! standard input, and damage that pooling makes worse.
mod common;

use chamanzil::{pool, repair_block, BlockRead, Repaired};
use chamanzil::{BLOCK, BLOCK_STREAM, CLOSING, MAIN, STREAM};
use common::cells::by_sectors;
use common::damage::{overwrite_rows, With};
use common::streams::{block_of, block_part, image, run_of, run_of_blocks, Numbers};
use common::{in_repository, Folder};
use std::fs;

const BLOCKS: usize = 3;
const RUN: usize = BLOCKS * BLOCK_STREAM + CLOSING;
/// Rows that each of the two streams has lost in each block: more than it stands.
const LOST: usize = 20;

/// A run of three blocks read on two drives. Rows are lost to both, but no row to both, nor the row before one: that has its last byte judged by what is lost.
fn two_drives(seed: u64) -> (Vec<u8>, Vec<u8>, Vec<u8>) {
    let (main, mut numbers) = (image(seed, BLOCKS * MAIN), Numbers::new(seed + 1));
    let whole = run_of(&main, 0x03_0000, 0);
    let mut lost = |from: usize| {
        let rows: Vec<usize> = (from..).step_by(10).take(LOST).collect();
        let mut stream = whole.clone();
        (0..BLOCKS).for_each(|k| overwrite_rows(&mut numbers, &mut stream, k, &rows, With::Noise));
        stream
    };
    let (first, second) = (lost(3), lost(8));
    (main, first, second)
}

fn count(marks: &[u8]) -> u32 {
    marks.iter().map(|mark| u32::from(*mark)).sum()
}

/// The line of block k of two streams, of which as many SYNC places are lost.
fn line_of(first: &[u8], second: &[u8], k: usize, sync: u32) -> String {
    let (mut bytes, mut erasures) = by_sectors(block_part(first, k));
    let (second_bytes, second_erasures) = by_sectors(block_part(second, k));
    let unknown = count(&erasures[..]) + count(&second_erasures[..]);
    pool(&mut bytes, &mut erasures, &second_bytes, &second_erasures).unwrap();
    let Repaired {
        main,
        first,
        rows,
        columns,
    } = repair_block(&mut bytes, &erasures).unwrap();
    let marked = count(&erasures[..]);
    let read = BlockRead {
        main,
        first,
        rows,
        columns,
        unknown,
        sync,
        erasures,
    };
    format!("{read} marked {marked}")
}

/// The summary that follows from a sheet's lines.
fn summary_of(lines: &str) -> String {
    let read = lines.lines().filter(|line| line.starts_with("block "));
    let counts: Vec<Vec<u32>> = read
        .map(|line| line.split(' ').skip(2).flat_map(str::parse).collect())
        .collect();
    let all = lines.lines().count();
    let sum = |i: usize| counts.iter().map(|counts| counts[i]).sum::<u32>();
    let [rows, past_help, columns, columns_past_help, unknown, sync, marked] =
        [0, 1, 2, 3, 4, 5, 6].map(sum);
    format!(
        "blocks {all} refused {} rows {rows} {past_help} columns {columns} {columns_past_help} \
         unknown {unknown} sync {sync} marked {marked}",
        all - counts.len()
    )
}

/// Neither stream is recovered, and the two together are: image, sheet and summary are the same in either order.
#[test]
fn what_neither_gives_alone() {
    let (main, first, second) = two_drives(160);
    let folder = Folder::with(&[("first", &first), ("second", &second)]);
    for stream in ["first", "second"] {
        let ended = folder
            .run(&format!("recover {stream} -o image --strict"))
            .with_status(1);
        assert!(ended.err.starts_with("refused "), "{}", ended.err);
    }
    assert_eq!(folder.names(), ["first", "second"]);

    // a lost row has two SYNC Codes
    let sync = u32::try_from(2 * LOST * 2).unwrap();
    let line = |k| line_of(&first, &second, k, sync) + "\n";
    let lines: String = (0..BLOCKS).map(line).collect();
    for streams in ["first second", "second first"] {
        let ended = folder
            .run(&format!("pool {streams} -o image --sheet lines"))
            .done()
            .said(&[&summary_of(&lines)]);
        assert_eq!(ended.out.len(), 0);
        assert!(folder.read("image") == main, "{streams}");
        assert_eq!(folder.read("lines"), lines.as_bytes(), "{streams}");
        assert_eq!(folder.names(), ["first", "image", "lines", "second"]);
    }
}

/// The second formatter's pairs: its answer begins the sheet's line, and its count of marks ends it.
#[test]
fn pairs_of_the_second_formatter() {
    let list = fs::read_to_string(in_repository("tests/data/vectors/pool.tsv")).unwrap();
    let path = |name: &str| {
        let file = name.rsplit('/').next().unwrap();
        let is_damaged = name.contains("damaged/");
        let folder = ["crates/trials/data", "tests/data/vectors/damaged"][usize::from(is_damaged)];
        in_repository(&format!("{folder}/{file}"))
    };
    for due in list.lines().skip(1) {
        let words: Vec<&str> = due.split('\t').collect();
        let folder = Folder::new();
        let mut command = folder.command("pool -o image --sheet - --keep-going");
        let ended = common::ended(command.args([path(words[0]), path(words[1])]));
        let (line, answer) = (ended.text().trim_end(), words[5]);
        if answer.starts_with("refused") {
            assert_eq!((line, ended.status), (answer, Some(1)), "{due}");
        } else {
            assert_eq!(ended.status, Some(0), "{due}");
            let counts = line.strip_prefix(answer).unwrap();
            assert!(counts.starts_with(" unknown "), "{line}");
            assert!(counts.ends_with(&format!(" marked {}", words[4])), "{line}");
        }
    }
}

/// The sums of both streams: their lines in tests/data/vectors/damaged/sheets.tsv have unknown 1619 sync 222 and unknown 591 sync 198.
#[test]
fn counts_of_both_streams() {
    let folder = Folder::new();
    for name in ["heavy8", "light5"] {
        let path = format!("tests/data/vectors/damaged/{name}.stream");
        folder.write(name, &fs::read(in_repository(&path)).unwrap());
    }
    let ended = folder.run("pool heavy8 light5 -o image --sheet -").done();
    let counts = "rows 151 7 columns 85 0 unknown 2210 sync 420 marked 379";
    assert_eq!(ended.text(), format!("block 030000 {counts}\n"));
    ended.said(&[&format!("blocks 1 refused 0 {counts}")]);
}

/// A reading pooled with itself is that reading: as run.damaged in tests/data/vectors/run/sheets.tsv, with each stream's counts.
#[test]
fn the_same_stream_twice() {
    let damaged = fs::read(in_repository("tests/data/vectors/run/run.damaged")).unwrap();
    let folder = Folder::with(&[("stream", &damaged)]);
    folder
        .run("recover stream -o alone --strict --keep-going")
        .with_status(1);
    let lines = "block 02FFE0 rows 187 8 columns 172 0 unknown 3312 sync 410 marked 1656\n\
                 refused 6 frame 0\n\
                 block 030000 rows 202 0 columns 0 0 unknown 1208 sync 404 marked 604\n";
    folder
        .run("pool stream stream -o image --sheet lines --keep-going")
        .with_status(1)
        .said(&[
            "refused 6 frame 0: the frame's EDC differs (block 1)",
            &summary_of(lines),
        ]);
    assert!(folder.read("image") == folder.read("alone"));
    assert_eq!(folder.read("lines"), lines.as_bytes());
}

/// More blocks than go to the processors at once, each of which one of the two streams has lost but for its first SYNC Code, by which the block before is read.
#[test]
fn many_blocks_keep_their_places() {
    const MANY: usize = 70;
    let main = image(163, MANY * MAIN);
    let whole = run_of(&main, 0x03_0000, 0);
    let (mut first, mut second) = (whole.clone(), whole);
    for k in 0..MANY {
        let stream = if k % 3 == 0 { &mut first } else { &mut second };
        stream[k * BLOCK_STREAM..][CLOSING..BLOCK_STREAM].fill(0);
    }
    let folder = Folder::with(&[("first", &first), ("second", &second)]);
    let (unknown, sync) = (MANY * BLOCK, MANY * (16 * 26 - 1));
    let summary = format!(
        "blocks {MANY} refused 0 rows 0 0 columns 0 0 unknown {unknown} sync {sync} marked 0"
    );
    folder
        .run("pool first second -o image")
        .done()
        .said(&[&summary]);
    assert!(folder.read("image") == main);
}

#[test]
fn lengths() {
    let (main, first, second) = two_drives(165);
    let folder = Folder::with(&[("first", &first), ("second", &second)]);
    for length in [0, 1, 32_769, 98_304] {
        let line = format!("pool first second -o - --length {length}");
        assert!(folder.run(&line).done().out == main[..length], "{length}");
    }
    folder
        .run("pool first second -o image --sheet lines --length 98305")
        .refused("refused 1: --length 98305, where the blocks have 98304 bytes");
    assert_eq!(folder.names(), ["first", "second"]);
}

/// Frame 0 of block 1 is lost to both streams, but for the row with its ID.
#[test]
fn a_block_that_is_refused() {
    let (mut main, mut first, mut second) = two_drives(167);
    let mut numbers = Numbers::new(169);
    let rows: Vec<usize> = (1..12).collect();
    for stream in [&mut first, &mut second] {
        overwrite_rows(&mut numbers, stream, 1, &rows, With::Noise);
    }
    let folder = Folder::with(&[("first", &first), ("second", &second), ("old", b"old")]);
    let refusal = "refused 6 frame 0: the frame's EDC differs (block 1)";
    for output in ["image", "old", "-"] {
        folder
            .run(&format!("pool first second -o {output} --sheet lines"))
            .refused(refusal)
            .said(&[refusal]);
    }
    assert_eq!(folder.names(), ["first", "old", "second"]);
    assert_eq!(folder.read("old"), b"old");

    let ended = folder
        .run("pool first second -o image --sheet lines --keep-going")
        .with_status(1);
    main[MAIN..2 * MAIN].fill(0);
    assert!(folder.read("image") == main);
    let lines = String::from_utf8(folder.read("lines")).unwrap();
    assert_eq!(lines.lines().nth(1), Some("refused 6 frame 0"));
    ended.said(&[refusal, &summary_of(&lines)]);
}

/// Which of the two streams lacks bytes for a block.
fn lacking(which: &str, left: usize, block: usize) -> String {
    let bytes = if left == 1 { "byte" } else { "bytes" };
    format!(
        "refused 1: the {which} stream has {left} {bytes} for this block, where 77380 are due (block {block})"
    )
}

/// A stream of another length beside one of three blocks: which block is refused, and how many bytes are left for it. Nothing is handed out.
#[test]
fn streams_of_different_lengths() {
    let whole = run_of(&image(170, BLOCKS * MAIN), 0x03_0000, 0);
    for (length, block, left) in [
        (0, 0, 0),
        (1, 0, 1),
        (BLOCK_STREAM, 0, BLOCK_STREAM),
        (STREAM, 1, 0),
        (STREAM + 1, 1, CLOSING + 1),
        (2 * BLOCK_STREAM + 40_000, 2, 40_000),
        (RUN - 1, 2, STREAM - 1),
    ] {
        let folder = Folder::with(&[("whole", &whole), ("cut", &whole[..length])]);
        for (streams, which) in [("cut whole", "first"), ("whole cut", "second")] {
            let line = lacking(which, left, block);
            for outputs in ["-o image --sheet lines", "-o - --length 1"] {
                let pool = format!("pool {streams} {outputs}");
                folder.run(&pool).refused(&line).said(&[&line]);
            }
        }
        assert_eq!(folder.names(), ["cut", "whole"], "{length}");
    }
}

/// A stream that goes on after the other has ended, be it by a byte.
#[test]
fn a_stream_that_goes_on() {
    let mut long = run_of(&image(171, (BLOCKS + 1) * MAIN), 0x03_0000, 0);
    for length in [RUN + BLOCK_STREAM, RUN + 1] {
        long.truncate(length);
        let folder = Folder::with(&[("long", &long), ("short", &long[..RUN])]);
        let (first, second) = (lacking("first", 0, BLOCKS), lacking("second", 0, BLOCKS));
        folder.run("pool short long -o image").refused(&first);
        folder.run("pool long short -o image").refused(&second);
        assert_eq!(folder.names(), ["long", "short"], "{length}");
    }
}

/// Each block that one of the streams lacks leaves zeros, as the last one of a cut stream does in `recover`.
#[test]
fn keep_going_past_the_end_of_one_stream() {
    let mut main = image(172, BLOCKS * MAIN);
    let whole = run_of(&main, 0x03_0000, 0);
    let folder = Folder::with(&[("whole", &whole), ("cut", &whole[..BLOCK_STREAM + 500])]);
    main[MAIN..].fill(0);
    let clean = "block 030000 rows 0 0 columns 0 0 unknown 0 sync 0 marked 0";
    let lines = format!("{clean}\nrefused 1\nrefused 1\n");
    for (streams, which) in [("cut whole", "first"), ("whole cut", "second")] {
        folder
            .run(&format!(
                "pool {streams} -o image --sheet lines --keep-going"
            ))
            .with_status(1)
            .said(&[
                &lacking(which, 500, 1),
                &lacking(which, 0, 2),
                &summary_of(&lines),
            ]);
        assert!(folder.read("image") == main);
        assert_eq!(folder.read("lines"), lines.as_bytes());
    }
}

#[test]
fn standard_input_and_output() {
    let (main, first, second) = two_drives(173);
    let folder = Folder::with(&[("first", &first), ("second", &second)]);
    let ended = folder.pipe("pool - second -o -", &first).done();
    assert!(ended.out == main);
    let ended = folder.pipe("pool first - -o -", &second).done();
    assert!(ended.out == main);
    let cut = &second[..RUN - 1];
    let line = lacking("second", STREAM - 1, BLOCKS - 1);
    folder.pipe("pool first - -o -", cut).refused(&line);

    folder
        .run("pool - - -o image")
        .with_status(2)
        .said(&["error: only one of the two streams can be standard input"]);
    assert_eq!(folder.names(), ["first", "second"]);
}

/// A stream that is not there, be it the first or the second.
#[test]
fn a_stream_that_can_not_be_read() {
    let folder = Folder::with(&[("stream", &run_of(&image(175, MAIN), 0x03_0000, 0))]);
    for streams in ["missing stream", "stream missing"] {
        folder
            .run(&format!("pool {streams} -o image"))
            .failed("cannot read missing: ");
        assert_eq!(folder.names(), ["stream"]);
    }
}

/// A byte in which the two differ is marked, whoever is right: a clean stream alone is read, and with a very bad one refused.
#[test]
fn a_clean_stream_with_a_very_bad_one() {
    let (main, mut numbers) = (image(176, MAIN), Numbers::new(177));
    let clean = run_of(&main, 0x03_0000, 0);
    let mut bad = clean.clone();
    // those of frame 2, but for the row with its ID
    let rows: Vec<usize> = (27..38).collect();
    overwrite_rows(&mut numbers, &mut bad, 0, &rows, With::Words);
    let folder = Folder::with(&[("clean", &clean), ("bad", &bad)]);
    let refusal = "refused 6 frame 2: the frame's EDC differs (block 0)";
    for streams in ["clean bad", "bad clean"] {
        folder
            .run(&format!("pool {streams} -o image"))
            .refused(refusal);
    }
    assert_eq!(folder.names(), ["bad", "clean"]);
    folder.run("recover clean -o image").done();
    assert!(folder.read("image") == main);
}

#[test]
fn a_jump_in_the_numbers_is_said() {
    let main = image(178, 2 * MAIN);
    let blocks = [
        block_of(&main[..MAIN], 0x03_0000, 0),
        block_of(&main[MAIN..], 0x03_0100, 0),
    ];
    let folder = Folder::with(&[("stream", &run_of_blocks(&blocks))]);
    folder.run("pool stream stream -o image").done().said(&[
        "block 1 has number 030100, where 030010 follows",
        "blocks 2 refused 0 rows 0 0 columns 0 0 unknown 0 sync 0 marked 0",
    ]);
    assert!(folder.read("image") == main);
}
