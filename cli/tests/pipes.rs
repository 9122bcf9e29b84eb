//! `-` in and out of every command, pipes by name, and pipes that deliver in small pieces or are closed early.
mod common;

use chamanzil::MAIN;
use common::streams::{bytes_of_blocks, image, run_of};
use common::{device, ended, fed, finished, Folder, CHAMANZIL};
use std::fs;
use std::io::Write;
use std::os::unix::fs::FileTypeExt;
use std::process::{Command, Stdio};
use std::thread;

const SHEET: &str = "block 030000 rows 0 0 columns 0 0 unknown 0 sync 0\n\
                     block 030010 rows 0 0 columns 0 0 unknown 0 sync 0\n";

/// An image of two blocks, and its stream.
fn two_blocks() -> (Vec<u8>, Vec<u8>) {
    let image = image(20, 2 * MAIN);
    let stream = run_of(&image, 0x03_0000, 0);
    (image, stream)
}

/// What a map of block 0 holds, as the command writes it to a file.
fn map_in_a_file(stream: &[u8]) -> Vec<u8> {
    let folder = Folder::with(&[("stream", stream)]);
    folder.run("map stream -o map.png").done();
    folder.read("map.png")
}

/// Every command with `-` for its input and output, its input, and the output due.
fn all_piped() -> Vec<(&'static str, Vec<u8>, Vec<u8>)> {
    let (image, stream) = two_blocks();
    let map = map_in_a_file(&stream);
    let verdict = b"blocks 2 sectors 32: lengths, zero runs and SYNC Codes hold\n".to_vec();
    vec![
        (
            "format - -o - --first 030000",
            image.clone(),
            stream.clone(),
        ),
        (
            "capture - -o -",
            stream.clone(),
            bytes_of_blocks(&image, 0x03_0000),
        ),
        ("recover - -o -", stream.clone(), image),
        ("sheet -", stream.clone(), SHEET.into()),
        ("map - -o -", stream.clone(), map),
        ("check -", stream, verdict),
    ]
}

#[test]
fn standard_input_to_standard_output() {
    let folder = Folder::new();
    for (line, input, due) in all_piped() {
        let ended = folder.pipe(line, &input).done();
        assert!(ended.out == due, "{line}");
        assert_eq!(folder.names().len(), 0, "{line}");
    }
}

/// Pieces that are no whole number of sectors, of words or of blocks.
#[test]
fn small_pieces() {
    let folder = Folder::new();
    for (line, input, due) in all_piped() {
        for piece in [1_001, 4_097, 70_000] {
            let ended = fed(&mut folder.command(line), &input, piece).done();
            assert!(ended.out == due, "{line}, pieces of {piece}");
        }
    }
}

#[test]
fn from_one_command_into_the_next() {
    let (image, _) = two_blocks();
    let folder = Folder::with(&[("image", &image)]);
    let format = r#""$0" format - -o - --first 030000 < image"#;
    let ended = folder
        .shell(&format!(r#"{format} | "$0" recover - -o -"#))
        .done();
    assert!(ended.out == image);
    let ended = folder.shell(&format!(r#"{format} | "$0" sheet -"#)).done();
    assert_eq!(ended.text(), SHEET);
    let ended = folder
        .shell(&format!(r#"{format} | "$0" capture - -o -"#))
        .done();
    assert!(ended.out == bytes_of_blocks(&image, 0x03_0000));
}

#[test]
fn the_sheet_on_standard_output() {
    let (image, stream) = two_blocks();
    let folder = Folder::with(&[("stream", &stream)]);
    let ended = folder.run("recover stream -o image --sheet -").done();
    assert_eq!(ended.text(), SHEET);
    assert!(folder.read("image") == image);
    let ended = folder.run("recover stream -o - --sheet lines").done();
    assert!(ended.out == image);
    assert_eq!(folder.read("lines"), SHEET.as_bytes());
    assert_eq!(folder.names(), ["image", "lines", "stream"]);
}

/// A pipe has no length and no place to go back to, also where it has a name.
#[test]
fn a_named_pipe_as_input_and_output() {
    let (image, stream) = two_blocks();
    let folder = Folder::new();
    assert!(Command::new("mkfifo")
        .arg(folder.path("in"))
        .arg(folder.path("out"))
        .status()
        .unwrap()
        .success());
    let (given, from) = (folder.path("in"), folder.path("out"));
    let writing = thread::spawn(move || fs::write(given, image).unwrap());
    let reading = thread::spawn(move || fs::read(from).unwrap());
    folder.run("format in -o out --first 030000").done();
    writing.join().unwrap();
    assert!(reading.join().unwrap() == stream);
    assert_eq!(folder.names(), ["in", "out"]);
    assert!(fs::metadata(folder.path("out"))
        .unwrap()
        .file_type()
        .is_fifo());
}

/// By names in /proc, where nothing can be put in the place of a pipe.
#[test]
fn standard_streams_by_their_names() {
    const LINE: &str = "recover /proc/self/fd/0 -o /proc/self/fd/1";
    let (image, stream) = two_blocks();
    let folder = Folder::new();
    let ended = folder.pipe(LINE, &stream).done();
    assert!(ended.out == image);
    // of a cut stream the first block could be handed out, and is not
    let line =
        "refused 1: the stream has 22624 bytes for this block, where 77380 are due (block 1)";
    folder.pipe(LINE, &stream[..100_000]).refused(line);
}

/// The command's output goes to a pipe whose reader has gone before anything was written.
#[track_caller]
fn closed_early(line: &str, input: &[u8]) {
    let folder = Folder::new();
    let mut child = folder.command(line).stdin(Stdio::piped()).spawn().unwrap();
    drop(child.stdout.take());
    let mut stdin = child.stdin.take().unwrap();
    // the sheet's first line can't be written, and what is left of its input is not read
    let _ = stdin.write_all(input);
    drop(stdin);
    finished(child).failed("cannot write standard output: ");
    assert_eq!(folder.names().len(), 0, "{line}");
}

#[test]
fn standard_output_closed_early() {
    for (line, input, _) in all_piped() {
        closed_early(line, &input);
    }
}

#[test]
fn standard_output_full() {
    let folder = Folder::new();
    for (line, input, _) in all_piped() {
        folder.write("input", &input);
        let line = format!(r#""$0" {line} < input > /dev/full"#);
        folder.shell(&line).failed("cannot write standard output: ");
    }
    assert_eq!(folder.names(), ["input"]);
}

#[test]
fn completions_to_a_full_disk() {
    for shell in ["bash", "zsh", "fish"] {
        let line = format!(r#""$0" completions {shell} > /dev/full"#);
        Folder::new()
            .shell(&line)
            .failed("cannot write standard output: ");
    }
}

/// Where one of two outputs goes to a device that takes nothing, the other is not there either.
#[test]
fn a_full_device_beside_a_file() {
    let folder = Folder::with(&[("stream", &two_blocks().1)]);
    let line = r#""$0" recover stream -o image --sheet - > /dev/full"#;
    folder.shell(line).failed("cannot write standard output: ");
    let line = r#""$0" recover stream -o - --sheet lines > /dev/full"#;
    folder.shell(line).failed("cannot write standard output: ");
    assert_eq!(folder.names(), ["stream"]);

    let Some(full) = device(&folder, "full", "7") else {
        return;
    };
    let before = folder.names();
    for outputs in ["-o FULL", "-o FULL --sheet lines", "-o image --sheet FULL"] {
        let line = format!("recover stream {}", outputs.replace("FULL", &full));
        folder.run(&line).failed(&format!("cannot write {full}: "));
        assert_eq!(folder.names(), before, "{outputs}");
    }
}

/// Standard input may be closed altogether.
#[test]
fn no_standard_input() {
    let folder = Folder::new();
    let mut closed = folder.program("sh", &["-c", r#""$0" sheet - <&-"#, CHAMANZIL]);
    let ended = ended(&mut closed).with_status(1);
    assert!(!ended.err.is_empty());
}
