//! The map's picture against classes and marks that are worked out here from the stream, its counts and strips, and the page that holds the same picture.
mod common;

use chamanzil::{BLOCK, MAIN, ROW, ROW_DATA};
use common::cells::{Cells, Class};
use common::damage::{half_of, overwrite_rows, scratch, set_half, some_rows, spot_rows};
use common::damage::{lose_zeros, With, NO_WORD};
use common::picture::Picture;
use common::streams::{block_part, edited, frame_place, image, run_of, scrambled_to_zeros};
use common::streams::{set_id, Numbers, FRAME_MAIN};
use common::{ended, in_repository, Ended, Folder, CHAMANZIL};
use std::fs;

fn vector(path: &str) -> Vec<u8> {
    fs::read(in_repository("tests/data/vectors").join(path)).unwrap()
}

/// Standard error ends with the counts and the sheet's line, after the refusal's line where there is one.
#[track_caller]
fn says(ended: &Ended, cells: &Cells, block: usize) {
    let mut due = vec![cells.counts(), cells.sheet.clone()];
    if cells.is_refused {
        let is_due = |line: &&str| {
            line.starts_with(&format!("{}: ", cells.sheet))
                && line.ends_with(&format!(" (block {block})"))
        };
        let lines = ended.lines();
        due.insert(
            0,
            lines
                .into_iter()
                .find(is_due)
                .expect("the refusal's line")
                .to_string(),
        );
    }
    assert_eq!(ended.lines(), due);
}

/// Draws a block and holds every cell, mark, strip and count to what the stream gives.
fn drawn(stream: &[u8], block: usize) -> Cells {
    let folder = Folder::with(&[("stream", stream)]);
    let cells = Cells::new(block_part(stream, block));
    let line = format!("map stream --block {block} -o map.png");
    let ended = folder.run(&line).with_status(i32::from(cells.is_refused));
    assert_eq!(ended.out.len(), 0);
    says(&ended, &cells, block);
    let picture = Picture::new(&folder.read("map.png"));
    picture.shows(&cells);
    assert!(picture.has_a_legend());
    assert_eq!(folder.names(), ["map.png", "stream"]);
    cells
}

fn has(cells: &Cells, classes: &[Class]) {
    for class in Class::ALL {
        assert_eq!(
            cells.count(class) > 0,
            classes.contains(&class),
            "{class:?}: {}",
            cells.counts()
        );
    }
}

#[test]
fn a_clean_block() {
    has(&drawn(&vector("damaged/clean.stream"), 0), &[Class::Right]);
    let counts = Cells::new(block_part(&vector("damaged/clean.stream"), 0)).counts();
    assert_eq!(counts, "right 37856 row 0 column 0 wrong 0 marked 0");
}

/// What became of the marked bytes.
fn marked_classes(cells: &Cells) -> Vec<Class> {
    let marked = (0..BLOCK).filter(|i| cells.is_marked(*i));
    marked.map(|i| cells.classes[i]).collect()
}

#[test]
fn a_lightly_damaged_block() {
    let cells = drawn(&vector("damaged/light5.stream"), 0);
    has(&cells, &[Class::Right, Class::Row]);
    assert_eq!(cells.marks(), 591);
    let marked = marked_classes(&cells);
    assert!(marked.contains(&Class::Row) && !marked.contains(&Class::Column));
}

/// Ten marks in each row, all put right by their rows, but for bytes that are 0 anyway.
#[test]
fn ten_marks_in_each_row() {
    let cells = drawn(&vector("damaged/tenunknown.stream"), 0);
    has(&cells, &[Class::Right, Class::Row]);
    assert!((0..208).all(|row| cells.marks_of(row) == 10));
    assert!(!cells.is_row_past_help.contains(&true));
}

/// In eight dead rows the columns put everything right but the rows' own parity, which no column holds. A mark has each of the classes.
#[test]
fn eight_dead_rows() {
    let cells = drawn(&vector("damaged/heavy8.stream"), 0);
    has(&cells, &Class::ALL);
    assert_eq!(
        cells.is_row_past_help.iter().filter(|past| **past).count(),
        8
    );
    let is_parity = |i: usize| i % ROW >= ROW_DATA;
    let wrong = |i: &usize| cells.classes[*i] == Class::Wrong;
    assert!((0..BLOCK).filter(wrong).all(is_parity));
    let marked = marked_classes(&cells);
    assert!(Class::ALL.iter().all(|class| marked.contains(class)));
}

/// A block that `recover` reads without marks is drawn as it is refused with them.
#[test]
fn a_block_that_is_refused_by_its_marks() {
    let main = [image(133, MAIN), scrambled_to_zeros(0x03_0010)].concat();
    let mut stream = run_of(&main, 0x03_0000, 0);
    lose_zeros(&mut stream, 1, 7);
    let cells = drawn(&stream, 1);
    assert_eq!(cells.sheet, "refused 6 frame 7");
    let rows = (0..208).filter(|row| cells.is_row_past_help[*row]);
    assert!(rows.clone().all(|row| cells.marks_of(row) > 10));
    assert_eq!(rows.count(), 9);
    let columns = (0..ROW_DATA).filter(|place| cells.is_column_past_help[*place]);
    assert!(columns.eq([20, 60]));
}

#[test]
fn refused_blocks() {
    for name in ["heavy9", "burst60000"] {
        let cells = drawn(&vector(&format!("damaged/{name}.stream")), 0);
        assert!(cells.is_refused);
        assert!(cells.count(Class::Wrong) > 0 && cells.is_column_past_help.contains(&true));
    }
    drawn(&vector("damaged/burst20000.stream"), 0);
}

/// Blocks refused for what their frames say, not for damage: nothing in them is wrong as a code.
#[test]
fn refused_with_every_byte_right() {
    let (ied, _) = edited(1, |block| block[frame_place(3, 5)] ^= 1);
    let (id, _) = edited(1, |block| set_id(block, 4, [0, 3, 0, 0x15]));
    let (edc, _) = edited(1, |block| block[frame_place(6, FRAME_MAIN)] ^= 1);
    for (stream, sheet) in [
        (ied, "refused 4 frame 3"),
        (id, "refused 5 frame 4"),
        (edc, "refused 6 frame 6"),
    ] {
        let cells = drawn(&stream, 1);
        assert_eq!(cells.sheet, sheet);
        has(&cells, &[Class::Right]);
    }
}

#[test]
fn each_block_of_a_run() {
    let stream = vector("run/run.damaged");
    let refused: Vec<bool> = (0..3)
        .map(|block| drawn(&stream, block).is_refused)
        .collect();
    assert_eq!(refused, [false, true, false]);
}

/// Damage of every amount around what a block stands.
#[test]
fn random_damage() {
    const BLOCKS: usize = 8;
    let mut numbers = Numbers::new(130);
    let mut stream = run_of(&image(131, BLOCKS * MAIN), 0x03_0000, 0);
    for k in 0..BLOCKS {
        match k % 4 {
            0 => scratch(&mut numbers, &mut stream, k),
            1 => spot_rows(&mut numbers, &mut stream, k),
            _ => {
                let rows = some_rows(&mut numbers, 5 + k);
                let with = [With::Noise, With::Words][k % 2];
                overwrite_rows(&mut numbers, &mut stream, k, &rows, with);
            }
        }
    }
    let refused = (0..BLOCKS)
        .filter(|k| drawn(&stream, *k).is_refused)
        .count();
    assert!((1..BLOCKS).contains(&refused), "{refused}");
}

/// One word in no table and one that gives another byte, each at its own cell.
#[test]
fn single_words() {
    let mut stream = run_of(&image(132, MAIN), 0x03_0000, 0);
    set_half(&mut stream, half_of(54, 17), NO_WORD);
    let word = 0b0010_0000_0000_1001; // byte 0 in State 1
    set_half(&mut stream, half_of(120, 181), word);
    let cells = drawn(&stream, 0);
    let [lost, other] = [54 * ROW + 17, 120 * ROW + 181];
    assert_eq!([lost, other].map(|i| cells.classes[i]), [Class::Row; 2]);
    assert_eq!([lost, other].map(|i| cells.is_marked(i)), [true, false]);
}

#[test]
fn the_kind_of_the_picture() {
    let folder = Folder::with(&[("stream", &vector("damaged/heavy8.stream"))]);
    folder.run("map stream -o map.png").done();
    folder.run("map stream -o map.html").done();
    let (png, html) = (folder.read("map.png"), folder.read("map.html"));
    assert!(png.starts_with(b"\x89PNG") && html.starts_with(b"<!"));
    for (line, due) in [
        ("map stream -o -", &png),
        ("map stream -o - --as png", &png),
        ("map stream -o - --as html", &html),
        ("map stream -o - --block 0", &png),
    ] {
        assert!(folder.run(line).done().out == *due, "{line}");
    }
    for (arguments, name, due) in [
        ("-o plain --as png", "plain", &png),
        ("-o plain.txt --as html", "plain.txt", &html),
        ("-o other.html --as png", "other.html", &png),
        ("-o other.png --as html", "other.png", &html),
    ] {
        folder.run(&format!("map stream {arguments}")).done();
        assert!(folder.read(name) == *due, "{arguments}");
    }
}

/// The picture of a page: its data: URI, decoded.
fn picture_of(page: &str) -> Vec<u8> {
    let start = "data:image/png;base64,";
    assert_eq!(page.matches(start).count(), 1);
    let (_, rest) = page.split_once(start).unwrap();
    let text = rest.split(['"', '\'']).next().unwrap();
    base64::decode(text).unwrap()
}

#[test]
fn the_page_holds_the_picture_and_nothing_from_outside() {
    let stream = vector("run/run.damaged");
    let folder = Folder::with(&[("stream", &stream)]);
    for block in 0..3 {
        let cells = Cells::new(block_part(&stream, block));
        let status = i32::from(cells.is_refused);
        folder
            .run(&format!("map stream --block {block} -o map.png"))
            .with_status(status);
        let ended = folder
            .run(&format!("map stream --block {block} -o map.html"))
            .with_status(status);
        says(&ended, &cells, block);
        let page = String::from_utf8(folder.read("map.html")).unwrap();
        assert!(picture_of(&page) == folder.read("map.png"));
        for outside in [
            "http",
            "<link",
            "@import",
            "url(",
            "fetch(",
            "XMLHttpRequest",
            "<iframe",
            "//www",
        ] {
            assert!(!page.contains(outside), "{outside}");
        }
        assert_eq!(
            page.matches("src=").count(),
            page.matches("src=\"data:").count()
        );
        let title = format!("<title>Block {block} of stream: {}</title>", cells.sheet);
        assert!(page.contains(&title), "{title}");
    }
}

/// A name with signs that a page reads as its own.
#[test]
fn a_name_that_looks_like_markup() {
    let name = "a<b>&\"c\"";
    let folder = Folder::with(&[(name, &vector("damaged/clean.stream"))]);
    ended(&mut folder.program(CHAMANZIL, &["map", name, "-o", "map.html"])).done();
    let page = String::from_utf8(folder.read("map.html")).unwrap();
    assert!(!page.contains("a<b>"), "the name is not escaped");
    assert!(page.contains("<title>Block 0 of a&lt;b&gt;&amp;"));
}
