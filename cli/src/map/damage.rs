//! What became of each byte of a block, by the library's own answers: the words as they are read and marked, then each row's repair, then each column's.
use chamanzil::{
    column_parity, correct_column, correct_row, read_block, read_word, row_parity, slices,
    BlockRead, Outcome, Refusal, BLOCK, BLOCK_REPORT, COLUMN, COLUMN_DATA, MAIN, ROW, ROW_DATA,
    STREAM,
};

use crate::sheet;

/// What became of a byte, be it marked or not.
#[derive(Clone, Copy, Debug, PartialEq, Eq)]
pub enum Class {
    /// As it was read. A marked byte is read as 0, which can be right.
    Right,
    Row,
    Column,
    /// Wrong after the repair. Where the block is refused nobody knows which bytes are; then it is those that no repair reached.
    Wrong,
}

/// The classes in the order of the counts.
pub const CLASSES: [Class; 4] = [Class::Right, Class::Row, Class::Column, Class::Wrong];

#[derive(Clone, Copy)]
pub struct Byte {
    pub word: u16,
    /// Whether the word is in no table.
    pub is_marked: bool,
    pub read: u8,
    pub after: u8,
    pub class: Class,
}

pub struct Damage {
    /// In recording order, 208 rows of 182.
    pub bytes: Vec<Byte>,
    pub rows_past_help: Vec<bool>,
    /// Columns 0 to 171: the others have no repair.
    pub columns_past_help: Vec<bool>,
    pub refusal: Option<Refusal>,
    /// The bench sheet's.
    pub line: String,
}

/// Where row i of the block stands in recording order (clause 19).
fn recorded(i: usize) -> usize {
    if i < COLUMN_DATA {
        i + i / 12
    } else {
        13 * (i - 191) - 1
    }
}

/// Half word k of a stream.
fn half(stream: &[u8], k: usize) -> u16 {
    u16::from_be_bytes([stream[2 * k], stream[2 * k + 1]])
}

/// The word of byte i and the half word after it: 93 half words are a Sync Frame, of which the first two are its SYNC Code (clause 21).
fn word_of(stream: &[u8], i: usize) -> (u16, u16) {
    let k = i / 91 * 93 + 2 + i % 91;
    (half(stream, k), half(stream, k + 1))
}

fn past_help(outcome: Outcome) -> bool {
    outcome == Outcome::Uncorrectable
}

/// The rows' repair by their marks, in place: which are past help.
fn repair_rows(block: &mut [u8], erasures: &[u8]) -> Vec<bool> {
    let rows = block.chunks_mut(ROW).zip(erasures.chunks(ROW));
    rows.map(|(row, marks)| {
        let row = row.try_into().expect("rows are 182");
        let marks = marks.try_into().expect("rows have 182 marks");
        past_help(correct_row(row, marks).expect("marks are 0 or 1"))
    })
    .collect()
}

/// Column c over the 208 rows in the order before they were moved.
fn column(block: &[u8], c: usize) -> [u8; COLUMN] {
    std::array::from_fn(|i| block[ROW * recorded(i) + c])
}

fn put_column(block: &mut [u8], c: usize, column: &[u8]) {
    for (i, byte) in column.iter().enumerate() {
        block[ROW * recorded(i) + c] = *byte;
    }
}

/// Which columns are past help, as the rows' repair leaves them.
fn columns_past_help(block: &[u8]) -> Vec<bool> {
    let columns = (0..ROW_DATA).map(|c| column(block, c));
    columns
        .map(|mut column| past_help(correct_column(&mut column)))
        .collect()
}

/// The block as the library leaves it after the repair, and its marks, also where it refuses a frame.
fn repaired(stream: &[u8; STREAM]) -> (Vec<u8>, Vec<u8>, Result<BlockRead, Refusal>) {
    let (mut block, mut erasures, mut main) = (vec![0; BLOCK], vec![0; BLOCK], vec![0; MAIN]);
    let mut report = [0; BLOCK_REPORT];
    let _ = slices::read_block(stream, &mut block, &mut erasures, &mut main, &mut report);
    (block, erasures, read_block(stream))
}

/// The block that has the same 192 rows of 172 bytes, with the parity of clause 18.
fn with_parity(block: &[u8]) -> Vec<u8> {
    let mut made = block.to_vec();
    for c in 0..ROW_DATA {
        let data: [u8; COLUMN] = column(&made, c);
        let parity = column_parity(data[..COLUMN_DATA].try_into().expect("a column has 192"));
        let whole = [&data[..COLUMN_DATA], &parity].concat();
        put_column(&mut made, c, &whole);
    }
    for row in made.chunks_mut(ROW) {
        let parity = row_parity(row[..ROW_DATA].try_into().expect("a row has 172"));
        row[ROW_DATA..].copy_from_slice(&parity);
    }
    made
}

impl Damage {
    pub fn of(stream: &[u8; STREAM]) -> Self {
        let words: Vec<_> = (0..BLOCK).map(|i| word_of(stream, i)).collect();
        let read: Vec<u8> = words
            .iter()
            .map(|(word, after)| read_word(*word, *after).unwrap_or(0))
            .collect();
        let (block, erasures, answer) = repaired(stream);
        let mut after_rows = read.clone();
        let rows_past_help = repair_rows(&mut after_rows, &erasures);
        let columns_past_help = columns_past_help(&after_rows);
        let right = answer.is_ok().then(|| with_parity(&block));

        let wrong = |i: usize| match &right {
            Some(right) => right[i] != block[i],
            None => rows_past_help[i / ROW] && *columns_past_help.get(i % ROW).unwrap_or(&true),
        };
        let bytes = (0..BLOCK).map(|i| Byte {
            word: words[i].0,
            is_marked: erasures[i] == 1,
            read: read[i],
            after: block[i],
            class: match () {
                () if wrong(i) => Class::Wrong,
                () if block[i] != after_rows[i] => Class::Column,
                () if after_rows[i] != read[i] => Class::Row,
                () => Class::Right,
            },
        });
        Damage {
            bytes: bytes.collect(),
            rows_past_help,
            columns_past_help,
            line: sheet::line(&answer),
            refusal: answer.err(),
        }
    }

    pub fn count(&self, class: Class) -> usize {
        self.bytes.iter().filter(|byte| byte.class == class).count()
    }

    pub fn marks(&self) -> usize {
        self.bytes.iter().filter(|byte| byte.is_marked).count()
    }

    /// The counts in a line: of each class, and of the marks, whatever became of their bytes.
    pub fn counts(&self) -> String {
        let classes = CLASSES.map(|class| format!("{} {}", class.name(), self.count(class)));
        format!("{} marked {}", classes.join(" "), self.marks())
    }
}

impl Class {
    fn name(self) -> &'static str {
        match self {
            Class::Right => "right",
            Class::Row => "row",
            Class::Column => "column",
            Class::Wrong => "wrong",
        }
    }
}
