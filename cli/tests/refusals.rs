//! Every refusal of the papers that the command can meet, 1 to 6 and 8, with its line and status; no byte is handed out and no file is left. 1 is in files.rs and
//! cut.rs, 8 in files.rs.
mod common;

use chamanzil::{BLOCK, MAIN, STREAM};
use common::streams::{blocks_of, edited, frame_place, image, run_of, run_of_blocks};
use common::streams::{set_id, with_parity, FRAME_EDC, FRAME_MAIN};
use common::Folder;

const FIRST_NUMBER: &str = "refused 2: the first number is no multiple of 16, or over 16,777,200";
const INFORMATION: &str = "refused 3: the Sector Information has a bit outside 2D";

/// Formats an image of so many blocks, which is refused.
#[track_caller]
fn format_refused(blocks: usize, arguments: &str, line: &str) {
    let folder = Folder::with(&[("image", &image(70, blocks * MAIN)), ("old", b"old")]);
    for output in ["stream", "old", "-"] {
        let command = format!("format image -o {output} {arguments}");
        folder.run(&command).refused(line).said(&[line]);
    }
    assert_eq!(folder.names(), ["image", "old"]);
    assert_eq!(folder.read("old"), b"old");
}

#[test]
fn number_2_no_multiple_of_16() {
    let line = format!("{FIRST_NUMBER} (block 0)");
    for first in ["000001", "000008", "03000F", "030001", "FFFFF1", "FFFFFF"] {
        format_refused(1, &format!("--first {first}"), &line);
    }
    // the lower of two numbers is given
    format_refused(1, "--first 030008 --info FF", &line);
}

#[test]
fn number_2_past_the_highest_number() {
    format_refused(2, "--first FFFFF0", &format!("{FIRST_NUMBER} (block 1)"));
    format_refused(20, "--first FFFFE0", &format!("{FIRST_NUMBER} (block 2)"));
}

#[test]
fn number_3_each_prohibited_bit() {
    for info in ["80", "40", "10", "02", "FF", "2F", "d2"] {
        let line = format!("{INFORMATION} (block 0)");
        format_refused(2, &format!("--first 030000 --info {info}"), &line);
    }
}

/// The Information byte and the first number of a stream, as they stand in its first sector.
fn id_of(stream: &[u8]) -> (u8, u32) {
    let part: &[u8; STREAM] = stream[..STREAM].try_into().unwrap();
    let sector = chamanzil::read_sector(part[..chamanzil::SECTOR_READ].try_into().unwrap());
    let first = chamanzil::read_block(part).unwrap().first;
    assert_eq!(sector.bytes[1..4], first.to_be_bytes()[1..]);
    (sector.bytes[0], first)
}

#[test]
fn first_number_and_information_arrive_as_given() {
    let given = [
        ("000000", "00", 0, 0x00),
        ("000010", "01", 0x10, 0x01),
        ("030000", "04", 0x03_0000, 0x04),
        ("02FFF0", "08", 0x02_FFF0, 0x08),
        ("0abcd0", "20", 0x0A_BCD0, 0x20),
        ("123450", "2d", 0x12_3450, 0x2D),
        ("FFFFF0", "2D", 0xFF_FFF0, 0x2D),
    ];
    let image = image(71, MAIN);
    let folder = Folder::with(&[("image", &image)]);
    for (first, info, number, byte) in given {
        folder
            .run(&format!(
                "format image -o stream --first {first} --info {info}"
            ))
            .done();
        let stream = folder.read("stream");
        assert_eq!(id_of(&stream), (byte, number));
        assert!(stream == run_of(&image, number, byte));
    }
    // without --info it is 00
    folder.run("format image -o stream --first 0FFFF0").done();
    assert_eq!(id_of(&folder.read("stream")), (0, 0x0F_FFF0));
}

/// A way to spoil a block, and the refusal's number, frame and words.
struct Spoiled {
    edit: fn(&mut [u8; BLOCK]),
    number: u8,
    frame: usize,
}

impl Spoiled {
    fn sheet(&self) -> String {
        format!("refused {} frame {}", self.number, self.frame)
    }

    fn line(&self, block: usize) -> String {
        let words = match self.number {
            4 => "the frame's IED differs",
            5 => "the frame's number or Information is not the one due",
            6 => "the frame's EDC differs",
            other => panic!("no frame is refused with {other}"),
        };
        format!("{}: {words} (block {block})", self.sheet())
    }
}

fn spoiled(number: u8, frame: usize, edit: fn(&mut [u8; BLOCK])) -> Spoiled {
    Spoiled {
        edit,
        number,
        frame,
    }
}

/// `recover` hands out nothing of a run with a refused block, neither on standard output nor in a file.
fn recover_is_refused(folder: &Folder, line: &str) {
    for outputs in [
        "-o image --sheet lines",
        "-o old",
        "-o -",
        "-o image --sheet -",
    ] {
        let command = format!("recover stream {outputs}");
        folder.run(&command).refused(line);
        folder.run(&format!("{command} --length 5")).refused(line);
        assert_eq!(folder.names(), ["old", "stream"], "{outputs}");
        assert_eq!(folder.read("old"), b"old", "{outputs}");
    }
}

/// Holds every command to what a run with a spoiled block gets.
fn refused_in_block(spoiled: &Spoiled, block: usize) {
    let (stream, main) = edited(block, spoiled.edit);
    let folder = Folder::with(&[("stream", &stream), ("old", b"old")]);
    let (line, sheet) = (spoiled.line(block), spoiled.sheet());
    recover_is_refused(&folder, &line);

    let ended = folder.run("sheet stream").with_status(1).said(&[&line]);
    let mut due: Vec<String> = (0..3)
        .map(|k| format!("block 0300{k}0 rows 0 0 columns 0 0 unknown 0 sync 0"))
        .collect();
    due[block].clone_from(&sheet);
    assert_eq!(ended.text().lines().collect::<Vec<_>>(), due);

    let map = format!("map stream --block {block} -o map.png");
    let ended = folder.run(&map).refused(&line);
    assert_eq!(ended.lines().last(), Some(&&sheet[..]));
    assert!(folder.read("map.png").starts_with(b"\x89PNG"));

    let keep_going = "recover stream -o image --keep-going";
    folder.run(keep_going).refused(&line);
    let mut due = main;
    due[block * MAIN..][..MAIN].fill(0);
    assert!(folder.read("image") == due, "{line}");
}

#[test]
fn number_4_in_every_block() {
    for block in 0..3 {
        let spoil = spoiled(4, 3, |block| block[frame_place(3, 5)] ^= 0x40);
        refused_in_block(&spoil, block);
    }
    let first = spoiled(4, 0, |block| block[frame_place(0, 4)] ^= 0x01);
    refused_in_block(&first, 0);
    let last = spoiled(4, 15, |block| block[frame_place(15, 4)] ^= 0x80);
    refused_in_block(&last, 2);
}

#[test]
fn number_5_in_every_block() {
    // block 1 has the numbers 030010 to 03001F
    let number = spoiled(5, 4, |block| set_id(block, 4, [0, 3, 0, 0x15]));
    let unlike_frame_0 = spoiled(5, 15, |block| set_id(block, 15, [1, 3, 0, 0x1F]));
    let no_multiple = spoiled(5, 0, |block| set_id(block, 0, [0, 3, 0, 0x18]));
    let prohibited = spoiled(5, 0, |block| set_id(block, 0, [2, 3, 0, 0x10]));
    for spoil in [number, unlike_frame_0, no_multiple, prohibited] {
        refused_in_block(&spoil, 1);
    }
    let all_prohibited = spoiled(5, 0, |block| {
        (0..16).for_each(|k| set_id(block, usize::from(k), [0x80, 3, 0, k]));
    });
    refused_in_block(&all_prohibited, 0);
    refused_in_block(&spoiled(5, 9, |block| set_id(block, 9, [0, 3, 0, 0x2A])), 2);
}

#[test]
fn number_6_in_every_block() {
    for block in 0..3 {
        let spoil = spoiled(6, 7, |block| block[frame_place(7, FRAME_MAIN + 1_000)] ^= 1);
        refused_in_block(&spoil, block);
    }
    let in_the_edc = spoiled(6, 15, |block| block[frame_place(15, FRAME_EDC + 3)] ^= 1);
    refused_in_block(&in_the_edc, 0);
    let first_byte = spoiled(6, 0, |block| block[frame_place(0, FRAME_MAIN)] ^= 1);
    refused_in_block(&first_byte, 2);
}

/// The first frame that fails is named, with its lowest number.
#[test]
fn the_first_frame_and_its_lowest_number() {
    let several = spoiled(4, 9, |block| {
        block[frame_place(9, 4)] ^= 1;
        block[frame_place(9, FRAME_EDC)] ^= 1;
        block[frame_place(12, FRAME_EDC)] ^= 1;
    });
    refused_in_block(&several, 1);
}

/// Of several refused blocks the first one stops, and the sheet has each.
#[test]
fn two_refused_blocks() {
    let main = image(72, 3 * MAIN);
    let mut blocks = blocks_of(&main, 0x03_0000);
    blocks[0][frame_place(3, 5)] ^= 1;
    blocks[2][frame_place(8, FRAME_MAIN)] ^= 1;
    for block in &mut blocks {
        with_parity(block);
    }
    let stream = run_of_blocks(&blocks);
    let folder = Folder::with(&[("stream", &stream)]);
    let (first, second) = (
        "refused 4 frame 3: the frame's IED differs (block 0)",
        "refused 6 frame 8: the frame's EDC differs (block 2)",
    );
    let ended = folder.run("recover stream -o image").refused(first);
    assert_eq!(ended.times(second), 0);
    folder
        .run("sheet stream")
        .with_status(1)
        .said(&[first, second]);
    let ended = folder
        .run("recover stream -o - --keep-going")
        .with_status(1);
    assert_eq!(ended.lines()[..2], [first, second]);
    assert!(ended.out[MAIN..2 * MAIN] == main[MAIN..2 * MAIN]);
}
