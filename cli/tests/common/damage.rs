//! Scratches: rows of a block's stream overwritten, and single half words changed; and damage that marks do not help with.
use super::streams::{frame_place, Numbers};
use chamanzil::{BLOCK_STREAM, COLUMN, ROW, ROW_DATA};

/// Bytes of a row in a stream: two Sync Frames of 186.
pub const ROW_STREAM: usize = 372;
/// Half words of a Sync Frame: two of its SYNC Code, 91 Code Words.
pub const FRAME_HALVES: usize = 93;

/// The half word of a block's stream that stands for a byte of the block.
pub fn half_of(row: usize, place: usize) -> usize {
    let i = row * ROW + place;
    i / 91 * FRAME_HALVES + 2 + i % 91
}

pub fn half_at(stream: &[u8], half: usize) -> u16 {
    u16::from_be_bytes([stream[2 * half], stream[2 * half + 1]])
}

pub fn set_half(stream: &mut [u8], half: usize, word: u16) {
    stream[2 * half..][..2].copy_from_slice(&word.to_be_bytes());
}

/// So many rows of a block, each another.
pub fn some_rows(numbers: &mut Numbers, count: usize) -> Vec<usize> {
    let mut rows = Vec::new();
    while rows.len() < count {
        let row = numbers.below(COLUMN);
        if !rows.contains(&row) {
            rows.push(row);
        }
    }
    rows
}

/// What a row is overwritten with.
#[derive(Clone, Copy)]
pub enum With {
    /// Any bits. Nearly all words are then in no table, and the row is read as zeros, which are a code row with no byte of its own.
    Noise,
    /// Half words of the stream from anywhere: bytes, but not the row's.
    Words,
}

impl With {
    pub fn either(numbers: &mut Numbers) -> Self {
        [With::Noise, With::Words][numbers.below(2)]
    }
}

/// Overwrites rows of block k of a run, SYNC Codes and all.
pub fn overwrite_rows(
    numbers: &mut Numbers,
    stream: &mut [u8],
    k: usize,
    rows: &[usize],
    with: With,
) {
    let count = stream.len() / 2;
    for row in rows {
        let start = (k * BLOCK_STREAM + row * ROW_STREAM) / 2;
        for half in start..start + ROW_STREAM / 2 {
            let word = match with {
                With::Noise => u16::try_from(numbers.below(0x1_0000)).unwrap(),
                With::Words => half_at(stream, numbers.below(count)),
            };
            set_half(stream, half, word);
        }
    }
}

/// Changes two half words in each row of block k of a run. A changed half word touches its own byte and, by bits 15 and 3, the one before it, and an overwritten
/// row the last byte of the row before: at most five bytes of a row in all, which its repair puts right.
pub fn spot_rows(numbers: &mut Numbers, stream: &mut [u8], k: usize) {
    let part = &mut stream[k * BLOCK_STREAM..][..BLOCK_STREAM];
    for row in 0..COLUMN {
        for _ in 0..2 {
            // place 0 of a row follows a SYNC Code, so that no half word touches the row before
            let half = half_of(row, numbers.below(ROW));
            let bits = u16::try_from(1 + numbers.below(0xFFFF)).unwrap();
            set_half(part, half, half_at(part, half) ^ bits);
        }
    }
}

/// Damage that a block stands: eight rows overwritten, which are then past help or become another code row, and two half words in each row changed.
pub fn scratch(numbers: &mut Numbers, stream: &mut [u8], k: usize) {
    spot_rows(numbers, stream, k);
    let rows = some_rows(numbers, 8);
    overwrite_rows(numbers, stream, k, &rows, With::Words);
}

/// A half word that is in no table.
pub const NO_WORD: u16 = 0xFFFF;
/// The word of byte 1 in State 1. It stands for it whatever follows: its next State is 1.
const WORD_OF_1: u16 = 0b0010_0000_0001_0010;

/// Damage that a block of main data scrambled to zeros stands without marks and not with them, in rows 1 to 9 of a frame, which are zeros. In each eleven words are
/// lost, and read as 0, which is right; two bytes become 1. Without marks the row mends these two. With them it is past help, and two columns have nine wrong bytes.
pub fn lose_zeros(stream: &mut [u8], k: usize, frame: usize) {
    let part = &mut stream[k * BLOCK_STREAM..][..BLOCK_STREAM];
    for row in (1..10).map(|r| frame_place(frame, ROW_DATA * r) / ROW) {
        for place in 40..51 {
            set_half(part, half_of(row, place), NO_WORD);
        }
        for place in [20, 60] {
            set_half(part, half_of(row, place), WORD_OF_1);
        }
    }
}
