//! How far one byte of the main data reaches in the block, and how far two blocks are apart (document 02, request 11), by the library and the second implementation:
//! pairs that reach the two figures, random pairs, and the course page's drawing. nine_rows_test.rs has what follows for the reader.
use crate::block::{block, BLOCK, MAIN};
use crate::blocks_test::accepted;
use crate::library;
use crate::light_test::other_than_0;
use crate::random::Random;
use crate::report::Report;
use crate::rs::distance;
use crate::vectors_test::{load, text};

/// At most so many bytes differ where one byte of the main data does,
pub const MOST: usize = 265;
/// and at least so many where the inputs differ at all.
pub const LEAST: usize = 187;

const FRAME_MAIN: usize = 2_048;
const ROW: usize = 182;
const COLUMNS: usize = 172;
const DATA_ROWS: usize = 192;
const EDC_COLUMNS: std::ops::Range<usize> = 168..172;

/// What the maker is given.
#[derive(Clone, PartialEq)]
struct Input {
    main: Vec<u8>,
    first: u32,
    info: u8,
}

impl Input {
    fn random(random: &mut Random) -> Input {
        let (first, info) = accepted(random);
        Input { main: random.bytes(MAIN), first, info }
    }

    /// With one byte of the main data changed.
    fn with(&self, place: usize, pattern: u8) -> Input {
        let mut other = self.clone();
        other.main[place] ^= pattern;
        other
    }

    fn block(&self) -> Vec<u8> {
        let mut out = vec![0xA5; BLOCK];
        assert_eq!(library::encode_block(&self.main, None, self.first, self.info, &mut out), 0);
        out
    }

    /// By both.
    fn compared(&self, report: &mut Report) -> Vec<u8> {
        let (ours, theirs) = (self.block(), block(&self.main, self.first, self.info));
        report.check(ours == theirs, || "the second implementation makes another block".into());
        ours
    }
}

// ---- which bytes change

/// Row of the 208 before they were moved, and column.
type Cell = (usize, usize);

/// Recording row 13 k + 12 is row k of outer parity.
fn cell(at: usize) -> Cell {
    let (row, column) = (at / ROW, at % ROW);
    match row % 13 {
        12 => (DATA_ROWS + row / 13, column),
        r => (row / 13 * 12 + r, column),
    }
}

fn differing(a: &[u8], b: &[u8]) -> Vec<Cell> {
    (0..BLOCK).filter(|&at| a[at] != b[at]).map(cell).collect()
}

/// Where a byte of the main data stands, and the last row of its frame, where EDC does.
fn stands(place: usize) -> (Cell, usize) {
    let (frame, at) = (place / FRAME_MAIN, 12 + place % FRAME_MAIN);
    ((12 * frame + at / COLUMNS, at % COLUMNS), 12 * frame + 11)
}

/// The byte and EDC, in their columns outer parity, in all these rows inner parity.
fn may_change(place: usize, (row, column): Cell) -> bool {
    let ((own_row, own_column), edc_row) = stands(place);
    let is_parity_row = row >= DATA_ROWS;
    let is_own = column == own_column && (row == own_row || is_parity_row);
    let is_edc = EDC_COLUMNS.contains(&column) && (row == edc_row || is_parity_row);
    let is_inner = column >= COLUMNS && (row == own_row || row == edc_row || is_parity_row);
    is_own || is_edc || is_inner
}

fn is_within(report: &mut Report, place: usize, a: &[u8], b: &[u8]) -> usize {
    let cells = differing(a, b);
    let outside = cells.iter().find(|&&cell| !may_change(place, cell));
    report.check(outside.is_none(), || format!("byte {place}: {outside:?} differs"));
    report.check((LEAST..=MOST).contains(&cells.len()), || format!("byte {place}: {} bytes differ", cells.len()));
    cells.len()
}

// ---- one byte

/// The changes of b1's main data in the vectors.
fn vectors(report: &mut Report) {
    report.begin("reach: vectors");
    let right = Input { main: load("b1.main"), first: 0x030000, info: 0 };
    let made = right.compared(report);
    let list = text("reach.tsv");
    for (i, line) in list.lines().skip(1).enumerate() {
        let words: Vec<&str> = line.split('\t').collect();
        let (place, pattern) = (words[0].parse().unwrap(), u8::from_str_radix(words[1], 16).unwrap());
        let other = right.with(place, pattern).compared(report);
        let count = is_within(report, place, &made, &other);
        report.check(count == words[2].parse().unwrap(), || format!("{line}: {count}"));
        if i == 0 {
            report.check(count == MOST && other == load("reach.block"), || format!("{line}: the stored block"));
        }
    }
    report.check(list.lines().count() == 14, || "13 changes".into());
    report.end();
}

/// Each byte of a frame, with a random change.
fn each_byte_of_a_frame(report: &mut Report, random: &mut Random) {
    report.begin("reach: each byte of a frame");
    let right = Input::random(random);
    let (made, frame) = (right.block(), random.below(16));
    let mut most = 0;
    for place in FRAME_MAIN * frame..FRAME_MAIN * (frame + 1) {
        let other = right.with(place, other_than_0(random)).block();
        most = most.max(is_within(report, place, &made, &other));
    }
    report.check(most == MOST, || format!("at most {most} bytes differ"));
    report.end();
}

fn any_byte(report: &mut Report, random: &mut Random, count: usize) {
    report.begin("reach: one byte of random blocks");
    for _ in 0..count {
        let (right, place) = (Input::random(random), random.below(MAIN));
        let other = right.with(place, other_than_0(random));
        let pair = [&right, &other].map(|input| input.compared(report));
        is_within(report, place, &pair[0], &pair[1]);
    }
    report.end();
}

/// The figure is that of one byte: two bytes of different frames reach farther.
fn two_bytes(report: &mut Report, random: &mut Random, count: usize) {
    report.begin("reach: two bytes of random blocks");
    for _ in 0..count {
        let right = Input::random(random);
        let places = random.places(16, 2).into_iter().map(|frame| FRAME_MAIN * frame + random.below(FRAME_MAIN));
        let other = places.collect::<Vec<_>>().into_iter().fold(right.clone(), |input, place| input.with(place, other_than_0(random)));
        let count = distance(&right.compared(report), &other.compared(report));
        report.check(count > MOST, || format!("{count} bytes differ"));
    }
    report.end();
}

// ---- two inputs

/// A code row of eleven bytes, at these columns, that as the last row of a frame leaves EDC as it was. Its columns have one byte each, so that 17 rows differ, in
/// eleven bytes each. (Found by a search through random code rows of eleven bytes, the 8,814,105th.)
const LIGHTEST: [(usize, u8); 11] =
    [(2, 0xEB), (12, 0xCE), (13, 0x93), (38, 0x33), (84, 0x84), (91, 0x02), (95, 0xC6), (111, 0xDE), (124, 0xCB), (154, 0x1C), (155, 0xCC)];

/// These columns and bytes as the course page has them.
pub fn lightest_lines() -> [String; 2] {
    let columns = LIGHTEST.map(|(column, _)| format!("{column:5}")).concat();
    let patterns = LIGHTEST.map(|(_, pattern)| format!("   {pattern:02X}")).concat();
    [format!("column{columns}"), format!("added {patterns}")]
}

/// The first byte of a frame's last row is byte 1,880 of its main data.
pub fn lightest(main: &[u8], frame: usize) -> Vec<u8> {
    let mut other = main.to_vec();
    LIGHTEST.iter().for_each(|&(column, pattern)| other[FRAME_MAIN * frame + 1_880 + column] ^= pattern);
    other
}

fn least(report: &mut Report, random: &mut Random) {
    report.begin("reach: pairs that differ in as few bytes as can be");
    for frame in 0..16 {
        let right = Input::random(random);
        let other = Input { main: lightest(&right.main, frame), ..right.clone() };
        let count = distance(&right.compared(report), &other.compared(report));
        report.check(count == LEAST, || format!("frame {frame}: {count} bytes differ"));
    }
    report.end();
}

/// Another first number, Sector Information or main data, of which few or many bytes differ, or all three.
fn other_input(random: &mut Random, right: &Input, kind: usize) -> Input {
    let mut other = right.clone();
    let (first, info) = accepted(random);
    match kind {
        0 => other.first = first,
        1 => other.first ^= 16 << random.below(20),
        2 => other.info = info,
        3 => (0..2 + random.below(30)).for_each(|_| other.main[random.below(MAIN)] = random.byte()),
        4 => other.main = random.bytes(MAIN),
        _ => other = Input::random(random),
    }
    other
}

fn any_inputs(report: &mut Report, random: &mut Random, count: usize) {
    report.begin("reach: random pairs of inputs");
    for i in 0..count {
        let right = Input::random(random);
        let other = other_input(random, &right, i % 6);
        let count = distance(&right.compared(report), &other.compared(report));
        let is_apart = if right == other { count == 0 } else { count >= LEAST };
        report.check(is_apart, || format!("kind {}: {count} bytes differ", i % 6));
    }
    report.end();
}

// ---- the drawing

/// Pixels a byte, and what is left around the array for words.
const SIDE: usize = 4;
const LEFT: usize = 100;
const TOP: usize = 30;

fn rectangle(class: &str, (row, column): Cell, rows: usize, columns: usize) -> String {
    let [x, y, width, height] = [LEFT + SIDE * column, TOP + SIDE * row, SIDE * columns, SIDE * rows];
    format!("<rect class=\"{class}\" x=\"{x}\" y=\"{y}\" width=\"{width}\" height=\"{height}\"/>\n")
}

/// A text that begins (start) or ends (end) at a cell, in the middle of its row.
fn words(anchor: &str, (row, column): Cell, text: &str) -> String {
    let (x, y) = (LEFT + SIDE * column, TOP + SIDE * row + 7);
    format!("<text text-anchor=\"{anchor}\" x=\"{x}\" y=\"{y}\">{text}</text>\n")
}

/// Frames and parity, as they stand before the rows are moved.
fn array() -> String {
    let mut svg = rectangle("data", (0, 0), DATA_ROWS, COLUMNS) + &rectangle("outer", (DATA_ROWS, 0), 16, COLUMNS);
    svg += &(rectangle("inner", (0, COLUMNS), DATA_ROWS, 10) + &rectangle("both", (DATA_ROWS, COLUMNS), 16, 10));
    for k in 0..16 {
        svg += &rectangle("frame", (12 * k, 0), 12, COLUMNS);
        svg += &format!("<text x=\"10\" y=\"{}\">frame {k}</text>\n", TOP + SIDE * 12 * k + 29);
    }
    svg += &format!("<text x=\"10\" y=\"{}\">outer parity</text>\n", TOP + SIDE * DATA_ROWS + 36);
    svg + &format!("<text text-anchor=\"end\" x=\"{}\" y=\"20\">inner parity</text>\n", LEFT + SIDE * ROW)
}

const STYLE: &str = "text { font: 13px sans-serif; } .data { fill: #eef2f5; } .outer { fill: #dfe9df; } .inner { fill: #f3ead9; } .both { fill: #e6dfcf; } \
.frame { fill: none; stroke: #c3ccd3; } .changed { fill: #b01020; }";

/// The pair of the vectors that reaches 265: the bytes that differ, and how many.
pub fn drawing() -> String {
    let place: usize = text("reach.tsv").lines().nth(1).and_then(|line| line.split('\t').next()?.parse().ok()).unwrap();
    let ((row, column), edc_row) = stands(place);
    let mut cells = differing(&load("b1.block"), &load("reach.block"));
    cells.sort();
    let (width, height) = (LEFT + SIDE * ROW + 10, TOP + SIDE * 208 + 10);
    let mut svg = format!("<svg xmlns=\"http://www.w3.org/2000/svg\" viewBox=\"0 0 {width} {height}\" width=\"{width}\" height=\"{height}\">\n");
    svg += &format!("<style>{STYLE}</style>\n<rect width=\"100%\" height=\"100%\" fill=\"white\"/>\n");
    svg += &array();
    cells.iter().for_each(|&cell| svg += &rectangle("changed", cell, 1, 1));
    svg += &words("end", (row, column - 2), "the byte: 1");
    svg += &words("end", (edc_row - 3, EDC_COLUMNS.start - 2), "EDC: 4");
    svg += &words("end", (edc_row + 7, COLUMNS - 2), "18 rows, 10 bytes of inner parity each: 180");
    svg += &words("end", (DATA_ROWS + 7, EDC_COLUMNS.start - 2), "5 columns, 16 bytes of outer parity each: 80");
    svg + "</svg>\n"
}

fn is_drawn(report: &mut Report) {
    report.begin("reach: the drawing");
    let drawn = std::fs::read_to_string(crate::papers::root().join("docs/course/reach.svg")).unwrap();
    report.check(drawn == drawing(), || "docs/course/reach.svg is not what --drawing writes".into());
    let changed = drawn.matches("class=\"changed\"").count();
    report.check(changed == MOST, || format!("{changed} bytes are drawn"));
    report.end();
}

pub fn all(report: &mut Report, random: &mut Random) {
    vectors(report);
    is_drawn(report);
    each_byte_of_a_frame(report, random);
    any_byte(report, random, 500);
    two_bytes(report, random, 20);
    least(report, random);
    any_inputs(report, random, 600);
}
