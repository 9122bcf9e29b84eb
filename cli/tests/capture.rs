//! What `capture` hands out: the captures of the second formatter, runs cut anywhere and slipped, standard input and output, what is refused, the picture, and the
//! memory that it needs.
mod common;

use chamanzil::{BLOCK, BLOCK_STREAM, CAPTURE, FRAME, FRAME_STREAM, MAIN};
use common::picture::WHITE;
use common::squares::{squares, squares_due, HALF, IN_FRAMES, IN_NONE, SQUARES};
use common::streams::{bytes_of_blocks, image, run_of};
use common::{finished, in_repository, peak_memory, Folder};
use std::fs::{self, File};
use std::io::{Read, Write};
use std::process::Stdio;

/// Bits of a Sync Frame and of a SYNC Code.
const FRAME_BITS: usize = 1_488;
const SYNC_BITS: usize = 32;
/// Frames of a block.
const BLOCK_FRAMES: usize = BLOCK / FRAME;
const OLD: &[u8] = b"an older file";

fn counts(frames: usize, stretches: usize) -> String {
    format!("frames {frames} stretches {stretches}")
}

/// The stretches of lines with a start and a length each, in ascending order: that of the library is open.
fn stretches_of(lines: &str, between: char) -> Vec<(usize, usize)> {
    let stretch = |line: &str| {
        let (start, length) = line.split_once(between).unwrap();
        (start.parse().unwrap(), length.parse().unwrap())
    };
    let mut stretches: Vec<_> = lines.lines().map(stretch).collect();
    stretches.sort_unstable();
    stretches
}

/// Holds bytes, stretches, picture and the last line of a capture to those due.
#[track_caller]
fn is_captured(capture: &[u8], bytes: &[u8], stretches: &[(usize, usize)]) {
    let folder = Folder::with(&[("capture", capture)]);
    let last = counts(bytes.len() / FRAME, stretches.len());
    let ended = folder
        .run("capture capture -o bytes --stretches lines --map map")
        .done()
        .said(&[&last]);
    assert_eq!(ended.out.len(), 0);
    assert!(folder.read("bytes") == bytes, "other bytes");
    let lines = String::from_utf8(folder.read("lines")).unwrap();
    assert_eq!(stretches_of(&lines, '\t'), stretches);
    assert!(lines.is_empty() || lines.ends_with('\n'));
    if !capture.is_empty() {
        let due = squares_due(8 * capture.len(), stretches);
        assert!(squares(&folder.read("map")) == due, "another picture");
    }
    assert_eq!(folder.names(), ["bytes", "capture", "lines", "map"]);
}

fn vector(name: &str) -> Vec<u8> {
    fs::read(in_repository("tests/data/vectors/captures").join(name)).unwrap()
}

#[test]
fn captures_of_the_second_formatter() {
    let entries = fs::read_dir(in_repository("tests/data/vectors/captures")).unwrap();
    let names = entries.map(|entry| entry.unwrap().file_name().into_string().unwrap());
    let names: Vec<String> = names
        .filter_map(|name| name.strip_suffix(".capture").map(String::from))
        .collect();
    assert_eq!(names.len(), 26);
    for name in names {
        let [capture, bytes, text] =
            ["capture", "bytes", "txt"].map(|kind| vector(&format!("{name}.{kind}")));
        let text = String::from_utf8(text).unwrap();
        let (first, lines) = text.split_once('\n').unwrap();
        let stretches = stretches_of(lines, ' ');
        let due = counts(bytes.len() / FRAME, stretches.len());
        assert_eq!(first, due, "{name}");
        is_captured(&capture, &bytes, &stretches);
    }
}

fn bits_of(bytes: &[u8]) -> Vec<bool> {
    let bit = |i: usize| bytes[i / 8] >> (7 - i % 8) & 1 == 1;
    (0..8 * bytes.len()).map(bit).collect()
}

/// Whole bytes, filled up with ZEROs.
fn bytes_of(bits: &[bool]) -> Vec<u8> {
    let byte = |some: &[bool]| {
        let ones = some.iter().enumerate().filter(|(_, bit)| **bit);
        ones.fold(0, |byte, (k, _)| byte | 0x80 >> k)
    };
    bits.chunks(8).map(byte).collect()
}

/// Bits put in after bit 700 of a frame, with runs of two ZEROs, or that many taken out there.
fn slip(frame: &mut Vec<bool>, by: isize) {
    let at = 700;
    match usize::try_from(by) {
        Ok(more) => drop(frame.splice(at..at, (0..more).map(|k| k % 3 == 2))),
        Err(_) => drop(frame.drain(at..at + by.unsigned_abs())),
    }
}

/// The bits of neighbouring pieces, of which some are in frames: what is left over as stretches.
fn stretches_beside(pieces: &[(usize, bool)]) -> Vec<(usize, usize)> {
    let (mut stretches, mut at): (Vec<(usize, usize)>, usize) = (Vec::new(), 0);
    for (length, is_taken) in pieces.iter().filter(|(length, _)| *length > 0) {
        match stretches.last_mut() {
            _ if *is_taken => {}
            Some((start, before)) if *start + *before == at => *before += length,
            _ => stretches.push((at, *length)),
        }
        at += length;
    }
    stretches
}

/// Holds what is captured of a run of two blocks without its first bits, in which some frames have so many bits more or fewer, to the frames that are left whole.
fn is_captured_run(image: &[u8], cut: usize, slips: &[(usize, isize)]) {
    let stream = bits_of(&run_of(image, 0x03_0000, 0));
    let blocks = bytes_of_blocks(image, 0x03_0000);
    let (mut bits, mut bytes, mut pieces) = (Vec::new(), Vec::new(), Vec::new());
    for (k, frame) in stream.chunks(FRAME_BITS).enumerate() {
        let mut frame = frame.to_vec();
        let slips = slips.iter().filter(|(slipped, _)| *slipped == k);
        slips.for_each(|(_, by)| slip(&mut frame, *by));
        frame.drain(..frame.len().min(cut.saturating_sub(k * FRAME_BITS)));
        let is_whole = frame.len() == FRAME_BITS;
        if is_whole {
            bytes.extend(&blocks[k * FRAME..][..FRAME]);
        }
        pieces.push((frame.len(), is_whole));
        bits.extend(frame);
    }
    let capture = bytes_of(&bits);
    pieces.push((8 * capture.len() - bits.len(), false));
    is_captured(&capture, &bytes, &stretches_beside(&pieces));
}

/// The front cut at any bit of a byte, in mid frame, in a SYNC Code, at a frame and a bit beside it, and far into the run.
#[test]
fn the_front_is_cut() {
    let image = image(200, 2 * MAIN);
    for cut in [
        0, 1, 2, 3, 4, 5, 6, 7, 8, 31, 744, 1_487, 1_488, 1_489, 500_000,
    ] {
        is_captured_run(&image, cut, &[]);
    }
}

/// The front is cut, and in mid frame bits are too many or too few: that frame is lost, and no other.
#[test]
fn a_slip_in_mid_frame() {
    let image = image(201, 2 * MAIN);
    for by in [-40, -16, -8, -1, 1, 8, 16, 40] {
        is_captured_run(&image, 1_001, &[(300, by)]);
    }
}

/// In neighbouring frames, at the seam of the blocks, in the first frame that is left and in the last one.
#[test]
fn several_slips() {
    let image = image(202, 2 * MAIN);
    let slips = [(1, 3), (9, -7), (10, 5), (11, -1), (415, 1), (416, 2)];
    is_captured_run(&image, 1_400, &slips);
    is_captured_run(&image, 0, &[(0, -1), (2 * BLOCK_FRAMES - 1, 31)]);
}

/// So many times a frame, the SYNC Code after it and a byte, which are a stretch of 40 bits.
fn frames_apart(stream: &[u8], count: usize) -> Vec<u8> {
    [&stream[..FRAME_STREAM + 4], &[0b0010_0100]]
        .concat()
        .repeat(count)
}

/// As many stretches as frames, and more than are written at once.
#[test]
fn many_stretches() {
    const COUNT: usize = 5_000;
    let image = image(208, MAIN);
    let capture = frames_apart(&run_of(&image, 0x03_0000, 0), COUNT);
    let bytes = bytes_of_blocks(&image, 0x03_0000)[..FRAME].repeat(COUNT);
    let (apart, length) = (FRAME_BITS + 40, 40);
    let starts = (FRAME_BITS..).step_by(apart).take(COUNT);
    let stretches: Vec<_> = starts.map(|start| (start, length)).collect();
    let folder = Folder::with(&[("capture", &capture)]);
    folder
        .run("capture capture -o bytes --stretches lines")
        .done()
        .said(&[&counts(COUNT, COUNT)]);
    assert!(folder.read("bytes") == bytes);
    let lines = String::from_utf8(folder.read("lines")).unwrap();
    assert!(stretches_of(&lines, '\t') == stretches);
}

/// A run that `format` made is taken whole: its bytes are those of the blocks, and its closing code is in no frame.
#[test]
fn a_run_of_two_blocks() {
    let image = image(203, 2 * MAIN);
    let folder = Folder::with(&[("image", &image)]);
    folder.run("format image -o stream --first 030000").done();
    folder
        .run("capture stream -o bytes --stretches lines")
        .done()
        .said(&["frames 832 stretches 1"]);
    assert!(folder.read("bytes") == bytes_of_blocks(&image, 0x03_0000));
    let line = format!("{}\t{SYNC_BITS}\n", 8 * 2 * BLOCK_STREAM);
    assert_eq!(folder.read("lines"), line.as_bytes());
}

#[test]
fn an_empty_capture() {
    let folder = Folder::with(&[("capture", b"")]);
    folder
        .run("capture capture -o bytes --stretches lines --map map.png")
        .done()
        .said(&["frames 0 stretches 0"]);
    assert_eq!(
        (folder.read("bytes"), folder.read("lines")),
        (vec![], vec![])
    );
    let all = squares(&folder.read("map.png"));
    assert!(all.iter().all(|colour| *colour == WHITE));
    let ended = folder.run("capture - -o -").done();
    assert_eq!(ended.said(&["frames 0 stretches 0"]).out.len(), 0);
}

/// Each output on standard output, with the capture on standard input.
#[test]
fn standard_input_and_output() {
    let capture = vector("many.capture");
    let folder = Folder::with(&[("capture", &capture)]);
    folder
        .run("capture capture -o bytes --stretches lines --map map.png")
        .done();
    assert!(folder.read("bytes") == vector("many.bytes"));
    for (arguments, due) in [
        ("-o -", "bytes"),
        ("-o other --stretches -", "lines"),
        ("-o other --map -", "map.png"),
        ("-o - --stretches other --map other.png", "bytes"),
    ] {
        let ended = folder.pipe(&format!("capture - {arguments}"), &capture);
        let ended = ended.done().said(&["frames 11 stretches 4"]);
        assert!(ended.out == folder.read(due), "{arguments}");
    }
}

/// A line with each output that there can be, and the names of these.
const ALL: (&str, [&str; 3]) = (
    "capture capture -o bytes --stretches lines --map map.png",
    ["bytes", "lines", "map.png"],
);

fn write_older(folder: &Folder) {
    for name in ALL.1 {
        folder.write(name, OLD);
    }
}

/// A file of more bytes than a capture may have, none of which is on the disk. It is refused, and not read first.
#[test]
fn a_capture_that_is_too_long() {
    let (line, names) = ALL;
    let folder = Folder::new();
    let file = File::create(folder.path("capture")).unwrap();
    if file.set_len(CAPTURE + 1).is_err() {
        println!("skipped: no file can be that long here");
        return;
    }
    let refusal = "refused 1: the capture has more than 1099511627776 bytes";
    folder.run(line).refused(refusal).said(&[refusal]);
    folder.run("capture capture -o -").refused(refusal);
    folder
        .shell(r#""$0" capture - -o - < capture"#)
        .refused(refusal);
    assert_eq!(folder.names(), ["capture"]);

    write_older(&folder);
    folder.run(line).refused(refusal);
    for name in names {
        assert_eq!(folder.read(name), OLD, "{name}");
    }
    assert_eq!(folder.names(), ["bytes", "capture", "lines", "map.png"]);
}

/// Where one of the outputs can't be written there is none, and what was there stays.
#[test]
fn every_output_or_none() {
    let (line, names) = ALL;
    let folder = Folder::with(&[("capture", &vector("many.capture"))]);
    for missing in names {
        let other = format!("missing/{missing}");
        let line = line.replace(missing, &other);
        folder.run(&line).failed(&format!("cannot write {other}: "));
        assert_eq!(folder.names(), ["capture"], "{line}");
    }
    write_older(&folder);
    for missing in names {
        let line = line.replace(missing, &format!("missing/{missing}"));
        folder.run(&line).with_status(1);
        let full = line.replace(&format!("missing/{missing}"), "-");
        folder
            .shell(&format!(r#""$0" {full} > /dev/full"#))
            .failed("cannot write standard output: ");
        assert!(names.iter().all(|name| folder.read(name) == OLD), "{line}");
    }
    folder.run(line).done();
    assert!(names.iter().all(|name| folder.read(name) != OLD));
    assert_eq!(folder.names(), ["bytes", "capture", "lines", "map.png"]);
}

/// A capture that can't be read leaves no output.
#[test]
fn a_capture_that_can_not_be_read() {
    let folder = Folder::new();
    fs::create_dir(folder.path("folder")).unwrap();
    for name in ["missing", "folder"] {
        let line = ALL.0.replace("capture capture", &format!("capture {name}"));
        folder.run(&line).failed(&format!("cannot read {name}: "));
        assert_eq!(folder.names(), ["folder"], "{line}");
    }
}

fn picture_of(capture: &[u8]) -> Vec<[u8; 3]> {
    let folder = Folder::with(&[("capture", capture)]);
    folder.run("capture capture -o bytes --map map").done();
    assert_eq!(folder.names(), ["bytes", "capture", "map"]);
    squares(&folder.read("map"))
}

/// A square for each byte: the frames on both sides of a SYNC Code that is lost, and what follows the last one.
#[test]
fn a_picture_with_a_byte_in_each_square() {
    let mut stream = run_of(&image(204, MAIN), 0x03_0000, 0);
    stream.truncate(SQUARES);
    // 107 frames and the SYNC Code after them have room, and no frame more
    assert_eq!(SQUARES - 107 * FRAME_STREAM, 98);
    stream[50 * FRAME_STREAM..][..4].fill(0);
    let mut due = vec![IN_FRAMES; SQUARES];
    due[49 * FRAME_STREAM..51 * FRAME_STREAM].fill(IN_NONE);
    due[107 * FRAME_STREAM..].fill(IN_NONE);
    assert!(picture_of(&stream) == due);
}

/// A square for two bytes, of which one is in a frame where a slip of a byte ends.
#[test]
fn a_square_that_is_half_in_frames() {
    let mut stream = run_of(&image(205, MAIN), 0x03_0000, 0);
    stream.insert(20 * FRAME_STREAM + 90, 0b0010_0100);
    stream.truncate(2 * SQUARES);
    let mut due = vec![IN_FRAMES; SQUARES];
    due[10 * FRAME_STREAM..][..93].fill(IN_NONE);
    due[10 * FRAME_STREAM + 93] = HALF;
    // the last frame that a SYNC Code closes ends in mid square too: 215 frames and a byte are 39,991
    let last = 215 * FRAME_STREAM / 2;
    due[last] = HALF;
    due[last + 1..].fill(IN_NONE);
    assert!(picture_of(&stream) == due);
}

/// Captures without a frame are one stretch, be they a byte or many.
#[test]
fn a_picture_without_a_frame() {
    for name in ["one", "frame189", "zeros"] {
        let all = picture_of(&vector(&format!("{name}.capture")));
        assert!(all.iter().all(|colour| *colour == IN_NONE), "{name}");
    }
}

/// More bytes than a picture has squares by far: the last square has the closing code.
#[test]
fn a_picture_of_many_blocks() {
    const BLOCKS: usize = 70;
    let all = picture_of(&run_of(&image(206, BLOCKS * MAIN), 0x03_0000, 0));
    let (last, others) = all.split_last().unwrap();
    assert!(others.iter().all(|colour| *colour == IN_FRAMES));
    assert!(![IN_FRAMES, IN_NONE].contains(last), "{last:?}");
}

/// The most memory of a capture by the help, in KB: so many tenths of its length, beside what the command needs itself. When it hands its bytes out it has had
/// everything in memory.
fn needs_at_most(capture: &[u8], tenths: usize) {
    const OWN_KB: usize = 8_000;
    let most = capture.len() * tenths / 10_000 + OWN_KB;
    let folder = Folder::with(&[("capture", capture)]);
    for (line, input) in [
        ("capture capture -o -", &[][..]),
        ("capture - -o -", capture),
    ] {
        let mut child = folder.command(line).stdin(Stdio::piped()).spawn().unwrap();
        child.stdin.take().unwrap().write_all(input).unwrap();
        let out = child.stdout.as_mut().unwrap();
        out.read_exact(&mut [0]).unwrap();
        let memory = peak_memory(child.id());
        assert!(memory < most, "{line}: {memory} KB, where {most} are said");
        finished(child).done();
    }
}

/// From a file and from a pipe, where nothing is lost and where a stretch follows each frame.
#[test]
fn memory_is_what_the_help_says() {
    const BLOCKS: usize = 200;
    let stream = run_of(&image(207, BLOCKS * MAIN), 0x03_0000, 0);
    needs_at_most(&stream, 15);
    needs_at_most(&frames_apart(&stream, 80_000), 17);
}
