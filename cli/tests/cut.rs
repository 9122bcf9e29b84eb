//! Streams that end where no run ends: in mid block, in the closing code, after it, and nowhere.
mod common;

use chamanzil::{BLOCK_STREAM, CLOSING, MAIN};
use common::streams::{image, run_of};
use common::Folder;

const BLOCKS: usize = 3;
const RUN: usize = BLOCKS * BLOCK_STREAM + CLOSING;

/// A length of stream, the block that is refused there, and how many bytes are left for it.
const CUTS: [(usize, usize, usize); 10] = [
    (0, 0, 0),
    (1, 0, 1),
    (3, 0, 3),
    (4, 0, 4),
    (BLOCK_STREAM, 0, BLOCK_STREAM),
    (2 * BLOCK_STREAM + 5, 2, 5),
    (2 * BLOCK_STREAM + 40_000, 2, 40_000),
    (3 * BLOCK_STREAM + 2, 2, BLOCK_STREAM + 2),
    (3 * BLOCK_STREAM + 3, 2, BLOCK_STREAM + 3),
    (RUN + 1, 3, 5),
];

fn stream_of_length(length: usize) -> Vec<u8> {
    let mut stream = run_of(&image(30, BLOCKS * MAIN), 0x03_0000, 0);
    stream.resize(length, 0);
    stream
}

fn line_of(block: usize, left: usize) -> String {
    let bytes = if left == 1 { "byte" } else { "bytes" };
    format!("refused 1: the stream has {left} {bytes} for this block, where 77380 are due (block {block})")
}

#[test]
fn recover_hands_out_nothing() {
    for (length, block, left) in CUTS {
        let folder = Folder::with(&[("stream", &stream_of_length(length))]);
        let line = line_of(block, left);
        folder
            .run("recover stream -o image --sheet lines")
            .refused(&line);
        folder.run("recover stream -o -").refused(&line);
        folder.run("recover stream -o - --length 1").refused(&line);
        assert_eq!(folder.names(), ["stream"], "{length}");
    }
}

#[test]
fn recover_goes_on_where_asked() {
    for (length, block, left) in CUTS {
        let folder = Folder::with(&[("stream", &stream_of_length(length))]);
        let ended = folder
            .run("recover stream -o image --keep-going")
            .refused(&line_of(block, left));
        let summary = format!(
            "blocks {} refused 1 rows 0 0 columns 0 0 unknown 0 sync 0",
            block + 1
        );
        assert_eq!(ended.lines().last(), Some(&&summary[..]));
        let mut due = image(30, BLOCKS * MAIN);
        due.truncate(block * MAIN);
        due.resize((block + 1) * MAIN, 0);
        assert!(folder.read("image") == due, "{length}");
    }
}

#[test]
fn the_sheet_has_the_blocks_before() {
    for (length, block, left) in CUTS {
        let folder = Folder::with(&[("stream", &stream_of_length(length))]);
        let ended = folder
            .run("sheet stream")
            .with_status(1)
            .said(&[&line_of(block, left)]);
        let read = |k| format!("block 0300{k}0 rows 0 0 columns 0 0 unknown 0 sync 0\n");
        let due: String = (0..block).map(read).chain(["refused 1\n".into()]).collect();
        assert_eq!(ended.text(), due, "{length}");
    }
}

#[test]
fn check_says_the_length() {
    for (length, block, left) in CUTS {
        let folder = Folder::with(&[("stream", &stream_of_length(length))]);
        let ended = folder.run("check stream").refused(&line_of(block, left));
        // the blocks before have nothing wrong
        let is_of_others = |line: &&str| line.starts_with("block ");
        assert_eq!(
            ended.lines().into_iter().find(is_of_others),
            None,
            "{length}"
        );
    }
}

#[test]
fn map_draws_whole_blocks_only() {
    for (length, block, left) in CUTS {
        let folder = Folder::with(&[("stream", &stream_of_length(length))]);
        for to in ["map.png", "map.html", "-"] {
            let line = format!("map stream --block {block} -o {to}");
            folder.run(&line).refused(&line_of(block, left));
        }
        assert_eq!(folder.names(), ["stream"], "{length}");
        if block > 0 {
            folder.run("map stream -o map.png").done();
        }
    }
}

/// A block after the last one.
#[test]
fn map_of_no_block() {
    let folder = Folder::with(&[("stream", &stream_of_length(RUN))]);
    for block in ["3", "4", "1000", "18446744073709551615"] {
        let ended = folder
            .run(&format!("map stream --block {block} -o map.png"))
            .with_status(1);
        assert!(ended.err.starts_with("refused 1: "), "{}", ended.err);
        assert!(
            ended.err.ends_with(&format!("(block {block})\n")),
            "{}",
            ended.err
        );
    }
    assert_eq!(folder.names(), ["stream"]);
}
