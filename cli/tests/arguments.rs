//! Wrong arguments: status 2, something said, and no file.
mod common;

use chamanzil::MAIN;
use common::streams::{image, run_of};
use common::{ended, Folder, CHAMANZIL};

fn folder_of_one_block() -> Folder {
    let image = image(80, MAIN);
    Folder::with(&[("image", &image), ("stream", &run_of(&image, 0x03_0000, 0))])
}

/// Ends with status 2, words on standard error, and nothing else.
#[track_caller]
fn wrong(arguments: &[&str]) {
    let folder = folder_of_one_block();
    let ended = ended(&mut folder.program(CHAMANZIL, arguments)).with_status(2);
    assert!(!ended.err.is_empty(), "{arguments:?}: nothing said");
    assert_eq!(
        ended.out.len(),
        0,
        "{arguments:?}: bytes on standard output"
    );
    assert_eq!(folder.names(), ["image", "stream"], "{arguments:?}");
}

#[track_caller]
fn wrong_line(line: &str) {
    wrong(&line.split_whitespace().collect::<Vec<_>>());
}

#[test]
fn first_is_six_hexadecimal_digits() {
    let wrong_numbers = [
        "",
        "0",
        "30000",
        "0300000",
        "03000g",
        "g30000",
        "+30000",
        "-30000",
        "0x0300",
        "0x030000",
        "03 000",
        " 30000",
        "030000 ",
        "03_000",
        "03000.",
        "0300é",
        "03000é",
        "０３００００",
        "٠٣٠٠٠٠",
    ];
    for first in wrong_numbers {
        let option = format!("--first={first}");
        wrong(&["format", "image", "-o", "stream2", &option]);
    }
    wrong(&["format", "image", "-o", "stream2", "--first", "-30000"]);
    wrong(&["format", "image", "-o", "stream2", "--first", "+30000"]);
}

#[test]
fn info_is_two_hexadecimal_digits() {
    for info in [
        "", "0", "000", "0g", "+1", "-1", "0x", "0x0", "0x01", " 1", "1 ", "é", "²0",
    ] {
        let option = format!("--info={info}");
        wrong(&[
            "format", "image", "-o", "stream2", "--first", "030000", &option,
        ]);
    }
}

#[test]
fn what_has_to_be_there() {
    for line in [
        "",
        "format",
        "format image",
        "format image -o stream2",
        "format image --first 030000",
        "format -o stream2 --first 030000",
        "format image stream2 --first 030000",
        "format image -o",
        "recover",
        "recover stream",
        "recover -o image2",
        "pool",
        "pool stream",
        "pool stream stream",
        "pool stream -o image2",
        "pool stream stream stream -o image2",
        "capture",
        "capture stream",
        "capture -o bytes",
        "capture stream --stretches lines --map map.png",
        "capture stream stream -o bytes",
        "capture stream -o bytes --stretches",
        "capture stream -o bytes --map",
        "sheet",
        "sheet stream stream",
        "map",
        "map stream",
        "map -o map.png",
        "check",
        "check stream stream",
        "completions",
    ] {
        wrong_line(line);
    }
}

#[test]
fn what_is_not_known() {
    for line in [
        "scratchy stream",
        "Format image -o stream2 --first 030000",
        "--unknown",
        "format image -o stream2 --first 030000 --keep-going",
        "sheet stream -o lines",
        "check stream --block 0",
        "completions klingon",
        "recover stream -o image2 --skip",
        "recover stream -o image2 --strict=1",
        "pool stream stream -o image2 --strict",
        "capture stream -o bytes --sheet lines",
        "capture stream -o bytes --keep-going",
        "sheet stream --strict",
        "map stream -o map.png --strict",
        "check stream --strict",
    ] {
        wrong_line(line);
    }
}

#[test]
fn counts_are_decimal() {
    for number in ["-1", "x", "", "1.5", "0x10", "99999999999999999999999"] {
        wrong(&[
            "recover",
            "stream",
            "-o",
            "image2",
            &format!("--length={number}"),
        ]);
        wrong(&[
            "map",
            "stream",
            "-o",
            "map.png",
            &format!("--block={number}"),
        ]);
    }
}

#[test]
fn a_map_has_a_kind() {
    for line in [
        "map stream -o map",
        "map stream -o map.txt",
        "map stream -o map.jpg",
        "map stream -o map.png.old",
        "map stream -o png",
        "map stream -o map.png --as gif",
        "map stream -o .png/map",
    ] {
        wrong_line(line);
    }
}

#[test]
fn image_and_sheet_are_two_files() {
    for line in [
        "recover stream -o out --sheet out",
        "recover stream --sheet out --output out",
        "recover stream -o - --sheet -",
        "recover stream --keep-going -o stream --sheet stream",
        "pool stream stream -o out --sheet out",
    ] {
        wrong_line(line);
    }
}

/// Each two of the three outputs of a capture.
#[test]
fn bytes_stretches_and_picture_are_three_files() {
    for (line, words) in [
        (
            "capture stream -o out --stretches out",
            "--output and --stretches",
        ),
        (
            "capture stream -o out --stretches lines --map out",
            "--output and --map",
        ),
        (
            "capture stream -o bytes --stretches - --map -",
            "--stretches and --map",
        ),
        (
            "capture stream --map out --stretches out -o out",
            "--output and --stretches",
        ),
    ] {
        wrong_line(line);
        let words = format!("error: {words} name the same file");
        folder_of_one_block()
            .run(line)
            .with_status(2)
            .said(&[&words]);
    }
}

/// Standard input can't be two streams.
#[test]
fn one_of_two_streams_is_standard_input() {
    wrong_line("pool - - -o image2");
    wrong_line("pool - - -o - --sheet lines --keep-going");
}

/// One file by two names must not become a mixture of both, whatever the command answers.
#[test]
fn one_file_by_two_names() {
    let folder = folder_of_one_block();
    folder.write("out", b"old");
    for line in [
        "recover stream -o out --sheet ./out",
        "capture stream -o out --stretches ./out",
        "capture stream -o bytes --stretches ./out --map out",
    ] {
        let ended = folder.run(line);
        assert_ne!(ended.status, Some(0), "{line}: {}", ended.err);
        assert_eq!(folder.read("out"), b"old", "{line}");
    }
    assert_eq!(folder.names(), ["image", "out", "stream"]);
}

/// An existing file is as it was after wrong arguments.
#[test]
fn an_existing_output_is_untouched() {
    let folder = folder_of_one_block();
    folder.write("out", b"old");
    for line in [
        "format image -o out --first 3000",
        "recover stream -o out --sheet out",
        "map stream -o out",
        "capture stream -o bytes --stretches out --map out",
    ] {
        folder.run(line).with_status(2);
        assert_eq!(folder.read("out"), b"old", "{line}");
    }
}

#[test]
fn options_by_their_long_names_and_in_any_order() {
    let folder = folder_of_one_block();
    folder
        .run("format --first 030000 --output stream2 --info 00 image")
        .done();
    assert!(folder.read("stream2") == folder.read("stream"));
    folder
        .run("recover --length=32768 --output=image2 stream")
        .done();
    assert!(folder.read("image2") == folder.read("image"));
    folder.run("map --as html --output map stream").done();
    folder
        .run("capture --map=map.png --output=bytes --stretches lines stream")
        .done();
    assert_eq!(
        folder.names(),
        ["bytes", "image", "image2", "lines", "map", "map.png", "stream", "stream2"]
    );
}
