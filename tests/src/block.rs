//! Data Frames and ECC Blocks, the second implementation (ECMA-268, clauses 16 to 19; document 01, 'The block').
use crate::rs::Code;

pub const MAIN: usize = 32_768;
pub const BLOCK: usize = 37_856;
pub const FRAME: usize = 2_064;

/// Table 3, by bits 7 to 4 of the sector number.
const PRESETS: [u16; 16] = [
    0x0001, 0x5500, 0x0002, 0x2A00, 0x0004, 0x5400, 0x0008, 0x2800, 0x0010, 0x5000, 0x0020, 0x2001,
    0x0040, 0x4002, 0x0080, 0x0005,
];

/// The scrambling bytes of a sector.
pub fn scrambling(preset: u16, count: usize) -> Vec<u8> {
    let mut register = preset;
    let mut bytes = Vec::with_capacity(count);
    for _ in 0..count {
        bytes.push(register as u8);
        for _ in 0..8 {
            let fed = (register >> 14 ^ register >> 10) & 1;
            register = (register << 1 | fed) & 0x7FFF;
        }
    }
    bytes
}

pub fn scramble(frame: &mut [u8], number: u32) {
    let preset = PRESETS[(number >> 4 & 15) as usize];
    for (b, s) in frame[12..2060].iter_mut().zip(scrambling(preset, 2048)) {
        *b ^= s;
    }
}

/// The bit string times x^32, modulo x^32 + x^31 + x^4 + 1.
pub fn edc(bytes: &[u8]) -> u32 {
    let mut remainder = 0u32;
    for &b in bytes {
        remainder ^= (b as u32) << 24;
        for _ in 0..8 {
            let carry = remainder >> 31;
            remainder = remainder << 1 ^ carry * 0x8000_0011;
        }
    }
    remainder
}

pub fn ied(id: &[u8]) -> Vec<u8> {
    Code::new(6, 2, 1).parity(id)
}

/// A Data Frame, scrambled.
pub fn frame(main: &[u8], info: u8, number: u32) -> Vec<u8> {
    let mut f = vec![info, (number >> 16) as u8, (number >> 8) as u8, number as u8];
    f.extend(ied(&f));
    f.extend([0; 6]);
    f.extend(main);
    f.extend(edc(&f).to_be_bytes());
    assert_eq!(f.len(), FRAME);
    scramble(&mut f, number);
    f
}

/// Row i of the 208 is recorded as this row (clause 19).
pub fn recorded(i: usize) -> usize {
    if i <= 191 {
        i + i / 12
    } else {
        13 * (i - 191) - 1
    }
}

/// Whether a block may come after the one with the previous first number, or begin a run (document 02, request 1). The sum does not wrap.
pub fn follows(previous: Option<u32>, first: u32) -> bool {
    match previous {
        None => true,
        Some(before) => before as u64 + 16 == first as u64,
    }
}

/// Refusals 1, 2, 3 and 10, or none.
pub fn refusal(main: usize, out: usize, previous: Option<u32>, first: u32, info: u8) -> u32 {
    if main != MAIN || out != BLOCK {
        return 1;
    }
    if first % 16 != 0 || first > 16_777_200 {
        return 2;
    }
    if info & !0x2D != 0 {
        return 3;
    }
    if !follows(previous, first) {
        return 10;
    }
    0
}

/// Sixteen Scrambled Frames as a block: parity is added to their rows in the order of clause 18, and then the rows move.
pub fn block_of_frames(frames: &[Vec<u8>]) -> Vec<u8> {
    let data = frames.concat();
    assert_eq!(data.len(), 16 * FRAME);
    let mut rows: Vec<Vec<u8>> = data.chunks(172).map(|r| r.to_vec()).collect();
    rows.resize(208, vec![0; 172]);
    let outer = Code::column();
    for j in 0..172 {
        let column: Vec<u8> = rows[..192].iter().map(|r| r[j]).collect();
        for (i, p) in outer.parity(&column).into_iter().enumerate() {
            rows[192 + i][j] = p;
        }
    }
    let inner = Code::row();
    let mut block = vec![0; BLOCK];
    for (i, row) in rows.iter().enumerate() {
        let at = 182 * recorded(i);
        block[at..at + 182].copy_from_slice(&inner.encoded(row));
    }
    block
}

pub fn block(main: &[u8], first: u32, info: u8) -> Vec<u8> {
    let frames: Vec<Vec<u8>> = main.chunks(2048).zip(first..).map(|(part, number)| frame(part, info, number)).collect();
    block_of_frames(&frames)
}
