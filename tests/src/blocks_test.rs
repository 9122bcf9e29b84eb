//! The block maker, reading and zero runs of the library against the second implementation.
use crate::block::{block, refusal, BLOCK, MAIN};
use crate::library;
use crate::random::Random;
use crate::reading::{zero_runs_hold, Reader};
use crate::report::Report;
use crate::tables::Tables;
use crate::writing::permitted_stream;

/// A random first number and Sector Information byte that the maker accepts.
pub fn accepted(random: &mut Random) -> (u32, u8) {
    (16 * random.below(1 << 20) as u32, random.byte() & 0x2D)
}

pub fn maker(report: &mut Report, random: &mut Random, count: usize) {
    report.begin("maker: random blocks");
    let mut out = random.bytes(BLOCK);
    for _ in 0..count {
        let main = random.bytes(MAIN);
        let (first, info) = accepted(random);
        let previous = first.checked_sub(16).filter(|_| random.coin());
        let answer = library::encode_block(&main, previous, first, info, &mut out);
        let right = block(&main, first, info);
        report.check(answer == 0 && out == right, || format!("first {first} after {previous:?} information {info}: {answer}"));
    }
    report.end();
}

/// Blocks before: none, the one due, one a little or much off, and those whose sum with 16 would be `first` modulo 2^32 only.
pub fn previous_numbers(first: u32) -> Vec<Option<u32>> {
    let steps = [16, 0, 1, 15, 17, 32, 256].map(|step| Some(first.wrapping_sub(step)));
    let ends = [Some(0), Some(first.wrapping_add(16)), Some(u32::MAX), Some(u32::MAX - 15)];
    [&[None], &steps[..], &ends[..]].concat()
}

pub fn maker_refusals(report: &mut Report, random: &mut Random) {
    report.begin("maker: refusals");
    let sizes = [(MAIN, BLOCK), (MAIN - 1, BLOCK), (MAIN + 1, BLOCK), (0, BLOCK), (MAIN, BLOCK - 1), (MAIN, BLOCK + 1), (MAIN, 0)];
    let firsts = [0, 8, 16, 1, 0x030000, 16_777_200, 16_777_201, 16_777_216, u32::MAX, u32::MAX - 15];
    for (n, m) in sizes {
        for first in firsts {
            let before = previous_numbers(first);
            for info in 0..=255u8 {
                // a prohibited Information byte is refused whatever comes before: none, the one due and one other will do
                let count = if info & !0x2D == 0 { before.len() } else { 3 };
                for &previous in &before[..count] {
                    maker_refusal(report, random, [n, m], previous, first, info);
                }
            }
        }
    }
    report.end();
}

/// What the second implementation refuses the library refuses, and leaves the block buffer.
fn maker_refusal(report: &mut Report, random: &mut Random, [n, m]: [usize; 2], previous: Option<u32>, first: u32, info: u8) {
    let due = refusal(n, m, previous, first, info);
    if due == 0 {
        return;
    }
    let main = vec![info; n];
    let was = vec![random.byte(); m];
    let mut out = was.clone();
    let answer = library::encode_block(&main, previous, first, info, &mut out);
    report.check(answer == due && out == was, || format!("{n} {m} {first} after {previous:?} {info}: {answer} for {due}"));
}

/// Every word of 16 bits, before each kind of half word that may follow.
pub fn words(report: &mut Report, random: &mut Random, reader: &Reader) {
    report.begin("reading: all words");
    for word in 0..=u16::MAX {
        for kind in [0x0000, 0x8000, 0x0008, 0x8008] {
            let following = random.next() as u16 & !0x8008 | kind;
            let (ours, theirs) = (library::read_word(word, following), reader.word(word, following));
            report.check(ours == theirs, || format!("{word:04X} {following:04X}: {ours:?} for {theirs:?}"));
        }
    }
    report.end();
}

/// Permitted streams with random choices: their zero runs, each byte read back, and the zero runs after a few bits have flipped.
pub fn streams(report: &mut Report, random: &mut Random, t: &Tables, count: usize) {
    report.begin("streams: random choices");
    for _ in 0..count {
        let (first, info) = accepted(random);
        let made = block(&random.bytes(MAIN), first, info);
        let mut stream = permitted_stream(t, &made, random).unwrap();
        report.check(library::zero_runs_hold(&stream) && zero_runs_hold(&stream), || "zero runs".into());
        let half = |i: usize| u16::from_be_bytes([stream[2 * i], stream[2 * i + 1]]);
        let wrong = (0..BLOCK).filter(|i| {
            let at = i / 91 * 93 + 2 + i % 91;
            library::read_word(half(at), half(at + 1)) != Some(made[*i])
        });
        let wrong = wrong.count();
        report.check(wrong == 0, || format!("{wrong} bytes are not read back"));
        for _ in 0..30 {
            let bit = random.below(8 * stream.len());
            stream[bit / 8] ^= 0x80 >> (bit % 8);
            let (ours, theirs) = (library::zero_runs_hold(&stream), zero_runs_hold(&stream));
            report.check(ours == theirs, || format!("bit {bit} flipped: {ours}"));
            if random.below(3) > 0 {
                stream[bit / 8] ^= 0x80 >> (bit % 8);
            }
        }
    }
    report.end();
}
