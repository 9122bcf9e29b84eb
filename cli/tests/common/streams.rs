//! Images and streams: what the library's writer makes of an image (`run_of`, `written`) and what is said of it (`said_of`), runs of blocks that the block
//! maker would not make (`edited`, `run_of_blocks`), and main data of which most rows are zeros (`scrambled_to_zeros`).
use chamanzil::{column_parity, encode_block, ied, row_parity, Record, Writer};
use chamanzil::{BLOCK, BLOCK_STREAM, CLOSING, COLUMN_DATA, MAIN, ROW, ROW_DATA, STREAM};

/// Bytes of a sector of an image.
pub const IMAGE_SECTOR: usize = 2_048;
/// Rows of a frame, before the rows are moved.
const FRAME_ROWS: usize = 12;
/// Where the main data of a frame begins, after ID, IED and six bytes.
pub const FRAME_MAIN: usize = 12;
/// Where the EDC of a frame begins.
pub const FRAME_EDC: usize = 2_060;

pub type Block = Box<[u8; BLOCK]>;

/// Numbers by a fixed rule (xorshift).
pub struct Numbers(u64);

impl Numbers {
    pub fn new(seed: u64) -> Self {
        Numbers(seed.wrapping_mul(2).wrapping_add(0x9E37_79B9_7F4A_7C15))
    }

    pub fn next(&mut self) -> u64 {
        self.0 ^= self.0 << 13;
        self.0 ^= self.0 >> 7;
        self.0 ^= self.0 << 17;
        self.0
    }

    pub fn below(&mut self, n: usize) -> usize {
        usize::try_from(self.next() >> 16).unwrap() % n
    }

    pub fn bytes(&mut self, n: usize) -> Vec<u8> {
        let mut bytes = Vec::with_capacity(n + 8);
        while bytes.len() < n {
            bytes.extend(self.next().to_le_bytes());
        }
        bytes.truncate(n);
        bytes
    }
}

pub fn image(seed: u64, length: usize) -> Vec<u8> {
    Numbers::new(seed).bytes(length)
}

/// An image of whole sectors, filled up with zeros to whole blocks.
pub fn zero_filled(image: &[u8]) -> Vec<u8> {
    let mut filled = image.to_vec();
    let blocks = image.chunks(MAIN).count();
    filled.resize(blocks * MAIN, 0);
    filled
}

/// The stream that the library's writer makes of an image of whole sectors.
pub fn run_of(image: &[u8], first: u32, info: u8) -> Vec<u8> {
    written(image, first, info).0
}

/// What is said of a run that was written: the last line of `format`.
pub fn said_of(record: Record) -> String {
    let Record {
        sectors, dsv, peak, ..
    } = record;
    let blocks = sectors / 16;
    format!("blocks {blocks} sectors {sectors} dsv {dsv} peak {peak}")
}

/// The stream that the library's writer makes of an image of whole sectors, and the record after closing.
pub fn written(image: &[u8], first: u32, info: u8) -> (Vec<u8>, Record) {
    let filled = zero_filled(image);
    let mut stream = vec![0; filled.len() / MAIN * BLOCK_STREAM + CLOSING];
    let mut writer = Writer::new();
    let mut number = first;
    for (main, out) in filled
        .chunks_exact(MAIN)
        .zip(stream.chunks_exact_mut(BLOCK_STREAM))
    {
        let (main, out) = (main.try_into().unwrap(), out.try_into().unwrap());
        writer = writer.write_block(main, number, info, out).unwrap();
        number += 16;
    }
    let record = close(writer, &mut stream);
    (stream, record)
}

fn close(writer: Writer, stream: &mut [u8]) -> Record {
    let closing = stream.len() - CLOSING;
    writer
        .close((&mut stream[closing..]).try_into().unwrap())
        .unwrap()
        .record()
}

/// The bytes from which block k of a run is read.
pub fn block_part(stream: &[u8], k: usize) -> &[u8; STREAM] {
    stream[k * BLOCK_STREAM..][..STREAM].try_into().unwrap()
}

/// Where row i of the 208, before the rows are moved, stands in recording order (document 01, 'The block').
pub fn recording_row(i: usize) -> usize {
    if i < COLUMN_DATA {
        i + i / FRAME_ROWS
    } else {
        (FRAME_ROWS + 1) * (i + 1 - COLUMN_DATA) - 1
    }
}

/// Where byte i of frame k stands in a block.
pub fn frame_place(k: usize, i: usize) -> usize {
    recording_row(FRAME_ROWS * k + i / ROW_DATA) * ROW + i % ROW_DATA
}

/// The parity of all columns and rows, made anew from the 192 rows of 172 bytes.
pub fn with_parity(block: &mut [u8; BLOCK]) {
    for j in 0..ROW_DATA {
        let word = std::array::from_fn(|i| block[recording_row(i) * ROW + j]);
        for (i, byte) in column_parity(&word).into_iter().enumerate() {
            block[recording_row(COLUMN_DATA + i) * ROW + j] = byte;
        }
    }
    for row in block.chunks_exact_mut(ROW) {
        let parity = row_parity(row[..ROW_DATA].try_into().unwrap());
        row[ROW_DATA..].copy_from_slice(&parity);
    }
}

/// A block of these main data with this number, whatever comes before it.
pub fn block_of(main: &[u8], first: u32, info: u8) -> Block {
    encode_block(main.try_into().unwrap(), None, first, info).unwrap()
}

/// The blocks of an image of whole blocks, numbered on from `first`.
pub fn blocks_of(image: &[u8], first: u32) -> Vec<Block> {
    let numbers = (first..).step_by(16);
    let mains = image.chunks_exact(MAIN);
    mains
        .zip(numbers)
        .map(|(main, number)| block_of(main, number, 0))
        .collect()
}

/// The bytes of these blocks, one block after the other.
pub fn bytes_of_blocks(image: &[u8], first: u32) -> Vec<u8> {
    let blocks = blocks_of(image, first);
    blocks.iter().flat_map(|block| block.to_vec()).collect()
}

/// Main data that are zeros once they are scrambled, of a block with this number: the block of zeros shows the scrambling bytes in their place.
pub fn scrambled_to_zeros(first: u32) -> Vec<u8> {
    let zeros = block_of(&vec![0; MAIN], first, 0);
    let places = (0..16).flat_map(|k| (FRAME_MAIN..FRAME_EDC).map(move |i| frame_place(k, i)));
    places.map(|place| zeros[place]).collect()
}

/// An ID in frame k of a block, with the IED that is right for it.
pub fn set_id(block: &mut [u8; BLOCK], k: usize, id: [u8; 4]) {
    for (i, byte) in id.into_iter().chain(ied(&id)).enumerate() {
        block[frame_place(k, i)] = byte;
    }
}

/// The run of these blocks, whatever bytes they hold.
pub fn run_of_blocks(blocks: &[Block]) -> Vec<u8> {
    let mut stream = vec![0; blocks.len() * BLOCK_STREAM + CLOSING];
    let mut writer = Writer::new();
    for (block, out) in blocks.iter().zip(stream.chunks_exact_mut(BLOCK_STREAM)) {
        writer = writer
            .write_sectors(block, out.try_into().unwrap())
            .unwrap();
    }
    close(writer, &mut stream);
    stream
}

/// A run of three blocks from number 030000, of which block k is edited and has its parity made anew. With the image.
pub fn edited(k: usize, edit: impl Fn(&mut [u8; BLOCK])) -> (Vec<u8>, Vec<u8>) {
    let main = image(0xED17, 3 * MAIN);
    let mut blocks = blocks_of(&main, 0x03_0000);
    edit(&mut blocks[k]);
    with_parity(&mut blocks[k]);
    (run_of_blocks(&blocks), main)
}
