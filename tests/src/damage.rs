//! Streams with flipped bits, and which bytes of a block they touch (demand 3 in the mission's sense): a bit of the byte's own Code Word, or bit 15 or 3 of the
//! half word after it. A stream is a block's: its sectors and the four bytes after them. A row is past what demand 3 allows with more than 5 touched bytes (heavy),
//! or, by the marks of document 02's request 2, with 2e + f over 10 (overloaded), where f are its unknown words and e its other touched bytes.
use crate::block::BLOCK;
use crate::random::Random;
use crate::reading::Reader;
use crate::tables::{Entry, Tables};

const ROWS: usize = 208;

/// A stream beside the permitted one that it was, and the rows that may be past what demand 3 allows. With a reader marks count, and rows are measured by 2e + f.
struct Damaged<'a> {
    right: &'a [u8],
    reader: Option<&'a Reader>,
    stream: Vec<u8>,
    is_past: [bool; ROWS],
}

fn half_at(stream: &[u8], half: usize) -> u16 {
    u16::from_be_bytes([stream[2 * half], stream[2 * half + 1]])
}

/// The half word of the stream that stands for byte i of the block.
fn half_of(i: usize) -> usize {
    i / 91 * 93 + 2 + i % 91
}

/// The row of the byte that a half word stands for, unless that is a SYNC Code's.
fn row_of(half: usize) -> Option<usize> {
    if half % 93 < 2 || half / 93 >= 2 * ROWS {
        return None;
    }
    Some(half / 93 / 2)
}

/// Another word for byte i.
pub fn replace(stream: &mut [u8], i: usize, word: u16) {
    stream[2 * half_of(i)..][..2].copy_from_slice(&word.to_be_bytes());
}

/// Makes the word of byte i unknown and touches no other byte: bits 15 and 3, by which the word before it is judged, stay. No word has these two ONEs or fewer.
pub fn blank(stream: &mut [u8], i: usize) {
    let left = half_at(stream, half_of(i)) & 0x8008;
    replace(stream, i, left);
}

/// Makes the word of byte i one for another byte, whatever follows it, and touches no other byte, as above.
pub fn mistake(random: &mut Random, t: &Tables, stream: &mut [u8], i: usize, right: u8) {
    let word = half_at(stream, half_of(i));
    let others = t.main.iter().enumerate().filter(|(byte, _)| *byte != right as usize).flat_map(|(_, entries)| entries);
    let fits = |e: &&Entry| (e.next == 1 || e.next == 4) && (e.word ^ word) & 0x8008 == 0;
    let words: Vec<u16> = others.filter(fits).map(|e| e.word).collect();
    replace(stream, i, words[random.below(words.len())]);
}

/// Flips some bits of the word of byte i and touches no other byte, as above.
pub fn flip_some(random: &mut Random, stream: &mut [u8], i: usize) {
    let pattern = (1 + random.below(65_535) as u16) & !0x8008;
    let word = half_at(stream, half_of(i));
    replace(stream, i, word ^ pattern);
}

impl<'a> Damaged<'a> {
    fn new(right: &'a [u8], stream: &[u8], reader: Option<&'a Reader>) -> Damaged<'a> {
        Damaged {
            right,
            reader,
            stream: stream.to_vec(),
            is_past: [false; ROWS],
        }
    }

    fn changed(&self, half: usize) -> u16 {
        half_at(self.right, half) ^ half_at(&self.stream, half)
    }

    /// A bit of the byte's own word, or bit 15 or 3 of the half word after it.
    fn touched(&self, i: usize) -> bool {
        self.changed(half_of(i)) != 0 || self.changed(half_of(i) + 1) & 0x8008 != 0
    }

    /// Unknown as read. An untouched word is not.
    fn unknown(&self, reader: &Reader, i: usize) -> bool {
        let at = half_of(i);
        reader.word(half_at(&self.stream, at), half_at(&self.stream, at + 1)).is_none()
    }

    /// A row's touched bytes twice, but unknown words once where marks count.
    fn load(&self, row: usize) -> usize {
        let touched = (182 * row..182 * row + 182).filter(|&i| self.touched(i));
        touched.map(|i| if self.reader.is_some_and(|reader| self.unknown(reader, i)) { 1 } else { 2 }).sum()
    }

    fn rows_past(&self) -> usize {
        (0..ROWS).filter(|&row| self.load(row) > 10).count()
    }

    fn flip(&mut self, half: usize, pattern: u16) {
        self.stream[2 * half] ^= (pattern >> 8) as u8;
        self.stream[2 * half + 1] ^= pattern as u8;
    }

    /// Changes a half word: a bit, any bits, any that the word before is not judged by, or to the word of another place. Not where a row would get past what demand
    /// 3 allows and is not to.
    fn change(&mut self, random: &mut Random, half: usize) {
        let pattern = match random.below(4) {
            0 => 1 << random.below(16),
            1 => 1 + random.below(65_535) as u16,
            2 => (1 + random.below(65_535) as u16) & !0x8008,
            _ => half_at(&self.stream, half) ^ half_at(self.right, half_of(random.below(BLOCK))),
        };
        self.flip(half, pattern);
        let rows = [row_of(half), half.checked_sub(1).and_then(row_of)];
        let is_past = rows.into_iter().flatten().any(|row| !self.is_past[row] && self.load(row) > 10);
        if is_past {
            self.flip(half, pattern);
        }
    }

    fn change_row(&mut self, random: &mut Random, row: usize, count: usize) {
        for _ in 0..count {
            let i = 182 * row + random.below(182);
            self.change(random, half_of(i));
        }
    }

    /// Rows that are past what demand 3 allows, scattered or side by side: all of them just so, each as it comes, or all of them lost.
    fn change_rows(&mut self, random: &mut Random, count: usize) {
        if random.below(3) == 0 {
            let from = random.below(ROWS + 1 - count);
            self.is_past[from..from + count].fill(true);
        } else {
            random.places(ROWS, count).into_iter().for_each(|row| self.is_past[row] = true);
        }
        let kind = random.below(3);
        for row in 0..ROWS {
            let count = match self.is_past[row] {
                true => [6, 6 + random.below(400), 800][kind],
                false => [0, 1, 3, 5, 30][random.below(5)],
            };
            self.change_row(random, row, count);
        }
    }

    /// Changes may have undone one another, or were too few.
    fn change_on(&mut self, random: &mut Random) {
        for row in 0..ROWS {
            while self.is_past[row] && self.load(row) <= 10 {
                self.change_row(random, row, 1);
            }
        }
    }

    /// The stream with exactly `count` rows past what demand 3 allows, and with spoiled SYNC Codes.
    fn scratched(mut self, random: &mut Random, count: usize) -> Vec<u8> {
        self.change_rows(random, count);
        self.change_on(random);
        for _ in 0..random.below(100) {
            let half = 93 * random.below(417) + random.below(2);
            self.change(random, half);
        }
        self.change_on(random);
        assert_eq!(self.rows_past(), count);
        self.stream
    }
}

/// Rows with more than 5 touched bytes where one stream became the other.
pub fn heavy_rows(right: &[u8], stream: &[u8]) -> usize {
    Damaged::new(right, stream, None).rows_past()
}

/// Rows with 2e + f over 10 likewise.
pub fn overloaded_rows(reader: &Reader, right: &[u8], stream: &[u8]) -> usize {
    Damaged::new(right, stream, Some(reader)).rows_past()
}

/// A stream with so many heavy rows.
pub fn damage(random: &mut Random, right: &[u8], heavy: usize) -> Vec<u8> {
    Damaged::new(right, right, None).scratched(random, heavy)
}

/// A stream with so many overloaded rows. The others have up to ten unknown words.
pub fn overload(random: &mut Random, reader: &Reader, right: &[u8], overloaded: usize) -> Vec<u8> {
    Damaged::new(right, right, Some(reader)).scratched(random, overloaded)
}
