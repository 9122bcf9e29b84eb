//! What each byte of a block is on a map, worked out from the block's stream by single words, rows and columns.
use super::damage::{half_at, half_of};
use super::streams::{recording_row, with_parity, Block};
use chamanzil::{correct_column, correct_row, read_block, read_sector, read_word, Outcome};
use chamanzil::{BLOCK, COLUMN, ROW, ROW_DATA, SECTOR, SECTOR_READ, SECTOR_STREAM, STREAM};

#[derive(Clone, Copy, Debug, PartialEq, Eq)]
pub enum Class {
    Wrong,
    Column,
    Row,
    Right,
}

impl Class {
    pub const ALL: [Class; 4] = [Class::Right, Class::Row, Class::Column, Class::Wrong];

    pub fn colour(self) -> [u8; 3] {
        match self {
            Class::Right => [0xED, 0xED, 0xED],
            Class::Row => [0x00, 0x9E, 0x73],
            Class::Column => [0x00, 0x72, 0xB2],
            Class::Wrong => [0xD5, 0x5E, 0x00],
        }
    }

    /// Its name in the line of counts.
    pub fn name(self) -> &'static str {
        match self {
            Class::Right => "right",
            Class::Row => "row",
            Class::Column => "column",
            Class::Wrong => "wrong",
        }
    }
}

/// A block's bytes on the way from its stream to the repaired block, each list in recording order.
pub struct Cells {
    pub words: Vec<u16>,
    /// None where the word is in no table.
    pub meanings: Vec<Option<u8>>,
    /// After the rows' repair.
    by_rows: Block,
    /// After the columns' repair.
    pub repaired: Block,
    pub is_row_past_help: [bool; COLUMN],
    pub is_column_past_help: [bool; ROW_DATA],
    /// The sheet's line.
    pub sheet: String,
    pub is_refused: bool,
    pub classes: Vec<Class>,
}

impl Cells {
    pub fn new(stream: &[u8; STREAM]) -> Self {
        let words: Vec<u16> = (0..BLOCK).map(|i| half_at(stream, half_of(0, i))).collect();
        let after = |i| half_at(stream, half_of(0, i) + 1);
        let meanings: Vec<Option<u8>> = (0..BLOCK).map(|i| read_word(words[i], after(i))).collect();
        let read = as_block(&meanings, |meaning| meaning.unwrap_or(0));
        let erasures = as_block(&meanings, |meaning| u8::from(meaning.is_none()));
        assert_eq!(by_sectors(stream), (read.clone(), erasures.clone()));
        let (by_rows, is_row_past_help) = rows_repaired(&read, &erasures);
        let (repaired, is_column_past_help) = columns_repaired(&by_rows);
        let (sheet, is_refused) = sheet_line(stream);
        let mut cells = Cells {
            words,
            meanings,
            by_rows,
            repaired,
            is_row_past_help,
            is_column_past_help,
            sheet,
            is_refused,
            classes: Vec::new(),
        };
        cells.classes = cells.classified();
        cells
    }

    /// The byte as read, 0 for an unknown word.
    pub fn read_as(&self, i: usize) -> u8 {
        self.meanings[i].unwrap_or(0)
    }

    /// Whether its word is in no table.
    pub fn is_marked(&self, i: usize) -> bool {
        self.meanings[i].is_none()
    }

    /// How many bytes of a row are marked.
    pub fn marks_of(&self, row: usize) -> usize {
        let places = row * ROW..(row + 1) * ROW;
        places.filter(|i| self.is_marked(*i)).count()
    }

    fn classified(&self) -> Vec<Class> {
        let mut same_data = self.repaired.clone();
        with_parity(&mut same_data);
        let is_wrong = |i: usize| {
            if self.is_refused {
                self.is_past_help(i / ROW, i % ROW)
            } else {
                self.repaired[i] != same_data[i]
            }
        };
        let class = |i: usize| match () {
            () if is_wrong(i) => Class::Wrong,
            () if self.repaired[i] != self.by_rows[i] => Class::Column,
            () if self.by_rows[i] != self.read_as(i) => Class::Row,
            () => Class::Right,
        };
        (0..BLOCK).map(class).collect()
    }

    /// The row is past help, and the column is too or has no repair.
    fn is_past_help(&self, row: usize, place: usize) -> bool {
        self.is_row_past_help[row] && (place >= ROW_DATA || self.is_column_past_help[place])
    }

    pub fn count(&self, class: Class) -> usize {
        self.classes.iter().filter(|other| **other == class).count()
    }

    /// How many bytes are marked.
    pub fn marks(&self) -> usize {
        (0..COLUMN).map(|row| self.marks_of(row)).sum()
    }

    /// The line of counts, as `right 35000 row 1619 column 1237 wrong 0 marked 1200`.
    pub fn counts(&self) -> String {
        let count = |class: Class| format!("{} {}", class.name(), self.count(class));
        format!(
            "{} marked {}",
            Class::ALL.map(count).join(" "),
            self.marks()
        )
    }
}

fn as_block(meanings: &[Option<u8>], of: fn(Option<u8>) -> u8) -> Block {
    let bytes: Vec<u8> = meanings.iter().map(|meaning| of(*meaning)).collect();
    bytes.into_boxed_slice().try_into().unwrap()
}

/// The bytes and the marks of the sector reader.
pub fn by_sectors(stream: &[u8; STREAM]) -> (Block, Block) {
    let starts = (0..16).map(|s| s * SECTOR_STREAM);
    let sectors = starts.map(|at| read_sector(stream[at..][..SECTOR_READ].try_into().unwrap()));
    let (bytes, erasures): (Vec<_>, Vec<_>) = sectors
        .map(|sector| (*sector.bytes, *sector.erasures))
        .unzip();
    let joined = |parts: Vec<[u8; SECTOR]>| parts.concat().into_boxed_slice().try_into().unwrap();
    (joined(bytes), joined(erasures))
}

fn rows_repaired(read: &Block, erasures: &Block) -> (Block, [bool; COLUMN]) {
    let mut block = read.clone();
    let mut is_past_help = [false; COLUMN];
    let rows = block.chunks_exact_mut(ROW).zip(erasures.chunks_exact(ROW));
    for ((row, marks), past) in rows.zip(&mut is_past_help) {
        let outcome = correct_row(row.try_into().unwrap(), marks.try_into().unwrap());
        *past = outcome == Ok(Outcome::Uncorrectable);
    }
    (block, is_past_help)
}

fn columns_repaired(by_rows: &Block) -> (Block, [bool; ROW_DATA]) {
    let mut block = by_rows.clone();
    let mut is_past_help = [false; ROW_DATA];
    for (j, past) in is_past_help.iter_mut().enumerate() {
        let mut column: [u8; COLUMN] = std::array::from_fn(|i| block[recording_row(i) * ROW + j]);
        *past = correct_column(&mut column) == Outcome::Uncorrectable;
        for (i, byte) in column.into_iter().enumerate() {
            block[recording_row(i) * ROW + j] = byte;
        }
    }
    (block, is_past_help)
}

/// The sheet's line of a block, and whether it is refused.
pub fn sheet_line(stream: &[u8; STREAM]) -> (String, bool) {
    match read_block(stream) {
        Ok(read) => (read.to_string(), false),
        Err(refusal) => {
            let frame = refusal.frame().unwrap();
            (format!("refused {} frame {frame}", refusal.number()), true)
        }
    }
}
