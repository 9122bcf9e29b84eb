//! Captures without a known start, the second implementation (document 02, request 6): a capture is a list of bits, and the look goes over it bit by bit.
use crate::reading::Reader;
use crate::tables::{Tables, SYNC_END};

/// Bits of a frame, from its SYNC Code to the next.
pub const FRAME: usize = 1_488;
/// Bits of a SYNC Code.
pub const CODE: usize = 32;
/// Bytes that a frame is read to,
pub const FRAME_BYTES: usize = 91;
/// and bytes of stream that it takes.
pub const FRAME_LAID: usize = 186;
/// The most bytes of a capture.
const MOST: u64 = 1_099_511_627_776;

/// True for a ONE.
pub type Bits = Vec<bool>;

pub fn bits_of(bytes: &[u8]) -> Bits {
    bytes.iter().flat_map(|byte| (0..8).rev().map(move |n| byte >> n & 1 == 1)).collect()
}

/// Whole bytes, filled up with ZEROs.
pub fn filled_up(bits: &[bool]) -> Vec<u8> {
    let byte = |part: &[bool]| (0..8).filter(|&n| part.get(n) == Some(&true)).map(|n| 0x80 >> n).sum();
    bits.chunks(8).map(byte).collect()
}

fn half(bits: &[bool], at: usize) -> u16 {
    bits[at..at + 16].iter().fold(0, |number, &bit| number << 1 | u16::from(bit))
}

/// What is lent to a call besides the capture: a buffer for the frames' bytes, a list of stretches, two numbers an entry, and a report of two numbers.
#[derive(Clone, PartialEq, Eq)]
pub struct Lent {
    pub out: Vec<u8>,
    pub stretches: Vec<u64>,
    pub report: Vec<u64>,
}

/// What a capture is read to.
pub struct Captured {
    /// The bits at which the taken frames start.
    pub frames: Vec<usize>,
    pub bytes: Vec<u8>,
    /// A start and a length in bits each, ascending.
    pub stretches: Vec<[u64; 2]>,
}

impl Captured {
    /// Numbers 1 and 14, or 0, for a capture of so many bytes.
    fn refusal(&self, length: usize, lent: &Lent) -> u32 {
        let is_sized = lent.out.len() == FRAME_BYTES * (length / FRAME_LAID) && lent.report.len() == 2;
        if length as u64 > MOST || !is_sized {
            1
        } else if self.stretches.len() > lent.stretches.len() / 2 {
            14
        } else {
            0
        }
    }

    /// The number of a call on a capture of so many bytes, and what it leaves of the buffers.
    pub fn left(&self, length: usize, was: &Lent) -> (u32, Lent) {
        let (number, mut lent) = (self.refusal(length, was), was.clone());
        if number == 0 {
            lent.out[..self.bytes.len()].copy_from_slice(&self.bytes);
            lent.stretches[..2 * self.stretches.len()].copy_from_slice(&self.stretches.concat());
            lent.report = vec![self.frames.len() as u64, self.stretches.len() as u64];
        }
        (number, lent)
    }
}

pub struct CaptureReader<'a> {
    /// The first halves of table 4's 32 codes.
    firsts: Vec<u16>,
    reader: &'a Reader,
}

impl<'a> CaptureReader<'a> {
    pub fn new(t: &Tables, reader: &'a Reader) -> CaptureReader<'a> {
        CaptureReader { firsts: t.sync.concat().concat(), reader }
    }

    /// The bits of the 32 codes.
    pub fn codes(&self) -> Vec<Bits> {
        self.firsts.iter().map(|first| bits_of(&[first.to_be_bytes(), SYNC_END.to_be_bytes()].concat())).collect()
    }

    /// A full SYNC Code stands here: both half words of any of the 32.
    pub fn is_code(&self, bits: &[bool], at: usize) -> bool {
        at + CODE <= bits.len() && half(bits, at + 16) == SYNC_END && self.firsts.contains(&half(bits, at))
    }

    /// Where full SYNC Codes stand.
    pub fn codes_of(&self, bits: &[bool]) -> Vec<usize> {
        (0..bits.len()).filter(|&at| self.is_code(bits, at)).collect()
    }

    /// The look: from bit 0 on by a bit, or to the second SYNC Code of a frame that is taken.
    fn frames(&self, bits: &[bool]) -> Vec<usize> {
        let (mut frames, mut look) = (Vec::new(), 0);
        while look < bits.len() {
            if self.is_code(bits, look) && self.is_code(bits, look + FRAME) {
                frames.push(look);
                look += FRAME;
            } else {
                look += 1;
            }
        }
        frames
    }

    /// The 91 bytes of a frame, 0 for an unknown word; the last word before the first half of the second SYNC Code.
    fn frame(&self, bits: &[bool], at: usize) -> Vec<u8> {
        let word = |i: usize| half(bits, at + CODE + 16 * i);
        (0..FRAME_BYTES).map(|i| self.reader.word(word(i), word(i + 1)).unwrap_or(0)).collect()
    }

    pub fn read(&self, bits: &[bool]) -> Captured {
        let frames = self.frames(bits);
        let bytes = frames.iter().flat_map(|&at| self.frame(bits, at)).collect();
        let stretches = stretches(&frames, bits.len());
        Captured { frames, bytes, stretches }
    }
}

/// The bits in no taken frame, each stretch as long as it can be.
fn stretches(frames: &[usize], length: usize) -> Vec<[u64; 2]> {
    let mut is_taken = vec![false; length];
    frames.iter().for_each(|&at| is_taken[at..at + FRAME].fill(true));
    let (mut found, mut at) = (Vec::new(), 0);
    for part in is_taken.chunk_by(|one, next| one == next) {
        if !part[0] {
            found.push([at, part.len() as u64]);
        }
        at += part.len() as u64;
    }
    found
}
