//! Images to streams and back: every length at an edge, 64 MB, zero sectors, and memory that does not grow with the image.
mod common;

use chamanzil::{Record, Writer, BLOCK_STREAM, CLOSING, MAIN};
use common::streams::{image, run_of, said_of, written, zero_filled, IMAGE_SECTOR};
use common::{finished, in_repository, peak_memory, until, Folder};
use std::fs::{self, File};
use std::io::{BufReader, BufWriter, Read, Write};
use std::process::Stdio;

/// 64 MB: 31,250 sectors, of which the last block has two.
const LARGE: usize = 64_000_000;
const LARGE_BLOCKS: usize = 1_954;
/// What the command may hold of 64 MB, its threads and its own code included.
const MEMORY_KB: usize = 48_000;

/// Formats an image that is a whole number of sectors, and recovers it. What is said before the last line is given, and how that begins.
fn there_and_back(image: &[u8], filled: &[&str], counts: &str) {
    let (stream, record) = written(image, 0x03_0000, 0);
    let last = said_of(record);
    assert!(last.starts_with(counts), "{last}");
    let folder = Folder::with(&[("image", image)]);
    let ended = folder
        .run("format image -o stream --first 030000")
        .done()
        .said(&[filled, &[&last]].concat());
    assert_eq!(ended.out.len(), 0);
    assert_eq!(folder.names(), ["image", "stream"]);
    assert!(folder.read("stream") == stream);

    let ended = folder
        .run(&format!("recover stream -o back --length {}", image.len()))
        .done();
    assert_eq!(ended.out.len(), 0);
    assert!(folder.read("back") == image);
    folder.run("recover stream -o whole").done();
    assert!(folder.read("whole") == zero_filled(image));
    assert_eq!(folder.names(), ["back", "image", "stream", "whole"]);
}

/// Images of one block and of three, to the streams that the second formatter made of them: two are closed by the Secondary code, two by the Primary. The last
/// line tells the DSV and the peak that are counted in them.
#[test]
fn streams_of_the_second_formatter() {
    let vectors = [
        ("crates/trials/data/b1", "030000", "00", [1, 2, 12]),
        ("crates/trials/data/b2", "000000", "2D", [1, -2, 10]),
        ("crates/trials/data/z", "030000", "00", [1, 4, 10]),
        ("tests/data/vectors/run/run", "02FFE0", "25", [3, 6, 24]),
    ];
    for (name, first, info, [blocks, dsv, peak]) in vectors {
        let vector = |kind: &str| fs::read(in_repository(&format!("{name}.{kind}"))).unwrap();
        let folder = Folder::with(&[("image", &vector("main"))]);
        let line = format!("format image -o stream --first {first} --info {info}");
        let sectors = 16 * blocks;
        let last = format!("blocks {blocks} sectors {sectors} dsv {dsv} peak {peak}");
        folder.run(&line).done().said(&[&last]);
        assert!(folder.read("stream") == vector("stream"), "{name}");
    }
}

#[track_caller]
fn refused_by_format(length: usize, line: &str) {
    let folder = Folder::with(&[("image", &image(1, length))]);
    folder
        .run("format image -o stream --first 030000")
        .refused(line)
        .said(&[line]);
    folder
        .run("format image -o - --first 030000")
        .refused(line)
        .said(&[line]);
    assert_eq!(folder.names(), ["image"]);
}

#[test]
fn no_byte() {
    refused_by_format(
        0,
        "refused 8: closing at no sectors, or at a count that is no multiple of 16",
    );
}

#[test]
fn one_byte_and_one_less_than_a_sector() {
    refused_by_format(
        1,
        "refused 1: the image has 1 byte for this block, no whole number of sectors of 2048 (block 0)",
    );
    refused_by_format(
        2_047,
        "refused 1: the image has 2047 bytes for this block, no whole number of sectors of 2048 (block 0)",
    );
}

#[test]
fn one_byte_less_and_one_more_than_a_block() {
    refused_by_format(
        32_767,
        "refused 1: the image has 32767 bytes for this block, no whole number of sectors of 2048 (block 0)",
    );
    refused_by_format(
        32_769,
        "refused 1: the image has 1 byte for this block, no whole number of sectors of 2048 (block 1)",
    );
}

#[test]
fn one_sector() {
    let filled = "filled up with 15 zero sectors";
    there_and_back(&image(2, IMAGE_SECTOR), &[filled], "blocks 1 sectors 16 ");
}

#[test]
fn one_block() {
    there_and_back(&image(3, MAIN), &[], "blocks 1 sectors 16 ");
}

#[test]
fn forty_sectors_are_three_blocks() {
    let (image, filled) = (image(4, 40 * IMAGE_SECTOR), "filled up with 8 zero sectors");
    there_and_back(&image, &[filled], "blocks 3 sectors 48 ");
}

#[test]
fn one_zero_sector_is_one() {
    let (image, filled) = (image(5, 31 * IMAGE_SECTOR), "filled up with 1 zero sector");
    there_and_back(&image, &[filled], "blocks 2 sectors 32 ");
}

/// More blocks than any processor count, so that their order counts, and every length of the last block.
#[test]
fn every_length_of_the_last_block() {
    for sectors in 1..=16 {
        let image = image(100 + sectors as u64, 20 * MAIN + sectors * IMAGE_SECTOR);
        let folder = Folder::with(&[("image", &image)]);
        let ended = folder
            .run("format image -o stream --first 030000 --info 25")
            .done();
        let (stream, record) = written(&image, 0x03_0000, 0x25);
        assert_eq!(ended.lines().last(), Some(&&*said_of(record)));
        assert!(folder.read("stream") == stream);
        folder
            .run(&format!("recover stream -o back --length {}", image.len()))
            .done();
        assert!(folder.read("back") == image);
    }
}

/// The main data of block k of the large image, which is made block by block and never held.
fn large_main(k: usize) -> Vec<u8> {
    let length = MAIN.min(LARGE - k * MAIN);
    image(1_000_000 + k as u64, length)
}

fn large_image(folder: &Folder) {
    let mut file = BufWriter::new(File::create(folder.path("image")).unwrap());
    for k in 0..LARGE_BLOCKS {
        file.write_all(&large_main(k)).unwrap();
    }
    file.flush().unwrap();
}

/// Holds the stream of the large image to the library's writer, whose last record this gives.
fn is_large_stream(folder: &Folder) -> Record {
    let mut file = BufReader::new(File::open(folder.path("stream")).unwrap());
    let (mut due, mut got) = (vec![0; BLOCK_STREAM], vec![0; BLOCK_STREAM]);
    let mut writer = Writer::new();
    for (k, first) in (0..LARGE_BLOCKS).zip((0x03_0000..).step_by(16)) {
        let main = zero_filled(&large_main(k));
        let main = main[..].try_into().unwrap();
        let out = (&mut due[..]).try_into().unwrap();
        writer = writer.write_block(main, first, 0, out).unwrap();
        file.read_exact(&mut got).unwrap();
        assert!(got == due, "block {k}");
    }
    let mut due = [0; CLOSING];
    writer = writer.close(&mut due).unwrap();
    let mut rest = Vec::new();
    file.read_to_end(&mut rest).unwrap();
    assert_eq!(rest, due);
    writer.record()
}

#[test]
fn sixty_four_megabytes() {
    let folder = Folder::new();
    large_image(&folder);
    let ended = folder.run("format image -o stream --first 030000").done();
    let last = said_of(is_large_stream(&folder));
    assert!(last.starts_with("blocks 1954 sectors 31264 "), "{last}");
    ended.said(&["filled up with 14 zero sectors", &last]);

    let summary = "blocks 1954 refused 0 rows 0 0 columns 0 0 unknown 0 sync 0";
    let recover = format!("recover stream -o back --length {LARGE}");
    folder.run(&recover).done().said(&[summary]);
    assert!(folder.read("back") == folder.read("image"));
}

/// Gives the command 64 MB by a pipe, and looks at its memory before the pipe is closed.
fn stays_small(line: &str, part: &str, parts: impl Iterator<Item = Vec<u8>>) {
    let folder = Folder::new();
    let mut child = folder.command(line).stdin(Stdio::piped()).spawn().unwrap();
    let mut stdin = child.stdin.take().unwrap();
    parts.for_each(|bytes| stdin.write_all(&bytes).unwrap());
    let memory = peak_memory(child.id());
    assert!(memory < MEMORY_KB, "{line}: {memory} KB");
    let name = format!(".{part}.{}.part", child.id());
    until("an output under way", || folder.names() == [name.clone()]);
    drop(stdin);
    finished(child).done();
    assert_eq!(folder.names(), [part]);
}

#[test]
fn memory_does_not_grow_with_the_image() {
    stays_small(
        "format - -o stream --first 030000",
        "stream",
        (0..LARGE_BLOCKS).map(large_main),
    );
    let stream = run_of(&image(6, 40 * MAIN), 0x03_0000, 0);
    let (block, closing) = (&stream[..40 * BLOCK_STREAM], &stream[40 * BLOCK_STREAM..]);
    let blocks = (0..20).map(|_| block.to_vec());
    stays_small(
        "recover - -o image",
        "image",
        blocks.chain([closing.to_vec()]),
    );
}
