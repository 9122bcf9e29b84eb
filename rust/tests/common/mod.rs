//! What the tests share: numbers by a fixed rule, blocks whose frames are edited with their parity made anew, a block as the sector reader reads it, and captures.
#![allow(dead_code, missing_docs)]
use chamanzil::{column_parity, read_sector, row_parity};
use chamanzil::{Stretch, BLOCK, MAIN, SECTOR, SECTOR_READ, SECTOR_STREAM, STREAM};

pub type Block = Box<[u8; BLOCK]>;

/// Numbers by a fixed rule (xorshift).
pub struct Numbers(u64);

impl Numbers {
    pub fn new(seed: u64) -> Self {
        Numbers(seed.wrapping_mul(2).wrapping_add(0x9E37_79B9_7F4A_7C15))
    }

    pub fn next(&mut self) -> u64 {
        self.0 ^= self.0 << 13;
        self.0 ^= self.0 >> 7;
        self.0 ^= self.0 << 17;
        self.0
    }

    pub fn below(&mut self, n: usize) -> usize {
        usize::try_from(self.next() >> 16).unwrap() % n
    }

    pub fn byte(&mut self) -> u8 {
        self.next().to_le_bytes()[3]
    }

    pub fn bytes(&mut self, n: usize) -> Vec<u8> {
        (0..n).map(|_| self.byte()).collect()
    }
}

/// A buffer on the heap, full of one byte.
#[allow(clippy::unnecessary_box_returns)]
pub fn buffer<const N: usize>(byte: u8) -> Box<[u8; N]> {
    vec![byte; N].into_boxed_slice().try_into().unwrap()
}

pub fn main_data(seed: u64) -> Box<[u8; MAIN]> {
    Numbers::new(seed)
        .bytes(MAIN)
        .into_boxed_slice()
        .try_into()
        .unwrap()
}

/// Where row i of the 208, before the rows are moved, stands in recording order (document 01, 'The block').
pub fn recording_row(i: usize) -> usize {
    if i < 192 {
        i + i / 12
    } else {
        13 * (i - 191) - 1
    }
}

/// Where byte i of frame k stands in a block.
pub fn frame_place(k: usize, i: usize) -> usize {
    recording_row(12 * k + i / 172) * 182 + i % 172
}

/// The parity of all columns and rows, made anew after frames were edited.
pub fn with_parity(block: &mut [u8; BLOCK]) {
    for j in 0..172 {
        let mut word = [0; 192];
        for (i, byte) in word.iter_mut().enumerate() {
            *byte = block[recording_row(i) * 182 + j];
        }
        for (i, byte) in column_parity(&word).into_iter().enumerate() {
            block[recording_row(192 + i) * 182 + j] = byte;
        }
    }
    for row in block.chunks_exact_mut(182) {
        let parity = row_parity(row[..172].try_into().unwrap());
        row[172..].copy_from_slice(&parity);
    }
}

/// The stream of a block that the block maker did not make.
pub fn stream_of(block: &[u8; BLOCK]) -> Box<[u8; STREAM]> {
    let mut stream = vec![0; STREAM];
    let (sectors, closing) = stream.split_at_mut(77_376);
    let writer = chamanzil::Writer::new()
        .write_sectors(block, sectors.try_into().unwrap())
        .unwrap();
    writer.close(closing.try_into().unwrap()).unwrap();
    stream.into_boxed_slice().try_into().unwrap()
}

/// The sector reader's bytes and marks, sector by sector, and how many words are unknown.
pub fn by_sectors(stream: &[u8; STREAM]) -> (Block, Block, u32) {
    let (mut block, mut erasures, mut unknown) = (buffer(0), buffer(0), 0);
    for k in 0..16 {
        let part = &stream[k * SECTOR_STREAM..k * SECTOR_STREAM + SECTOR_READ];
        let read = read_sector(part.try_into().unwrap());
        block[k * SECTOR..(k + 1) * SECTOR].copy_from_slice(&read.bytes[..]);
        erasures[k * SECTOR..(k + 1) * SECTOR].copy_from_slice(&read.erasures[..]);
        unknown += read.unknown;
    }
    (block, erasures, unknown)
}

/// Bits of a Sync Frame.
pub const FRAME_BITS: usize = 1_488;

/// A stream from one of its bits on, filled up with ZEROs.
pub fn from_bit(stream: &[u8], bit: usize) -> Vec<u8> {
    let part = &stream[bit / 8..];
    let after = part.iter().skip(1).chain(&[0]);
    part.iter()
        .zip(after)
        .map(|(byte, next)| (u16::from_be_bytes([*byte, *next]) << (bit % 8)).to_be_bytes()[0])
        .collect()
}

/// Stretches by their starts: their order is not stated.
pub fn in_order(mut stretches: Vec<Stretch>) -> Vec<Stretch> {
    stretches.sort_by_key(|stretch| stretch.start);
    stretches
}

/// The entries of a list, in order.
pub fn entries(numbers: &[u64]) -> Vec<Stretch> {
    let stretch = |entry: &[u64]| Stretch {
        start: entry[0],
        bits: entry[1],
    };
    in_order(numbers.chunks_exact(2).map(stretch).collect())
}
