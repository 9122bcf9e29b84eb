//! The capture reader, MB/s of capture: streams in step, from a SYNC Code on and from another bit on, a slip in every tenth frame, and noise. Issue 24 asks for
//! 60 MB/s in step, where two SYNC Codes are looked at for a frame, and for 20 MB/s of noise, where the look goes on bit by bit.
use crate::capture::{bits_of, filled_up, Bits, CaptureReader, FRAME, FRAME_BYTES, FRAME_LAID};
use crate::library;
use crate::random::Random;
use crate::reading::Reader;
use crate::tables::Tables;
use crate::timing::{rate, seconds};
use crate::writing::Record;
use crate::{write_block, BLOCK_STREAM, MAIN};

/// Blocks of the run that is captured.
const BLOCKS: usize = 4;
const FRAMES: usize = BLOCKS * BLOCK_STREAM / FRAME_LAID;

/// A capture, and what is lent with it.
struct Capture {
    stream: Vec<u8>,
    out: Vec<u8>,
    stretches: Vec<u64>,
    report: [u64; 2],
}

impl Capture {
    fn new(bits: &[bool]) -> Capture {
        let stream = filled_up(bits);
        let most = stream.len() / FRAME_LAID;
        Capture { stream, out: vec![0; FRAME_BYTES * most], stretches: vec![0; 2 * most + 2], report: [0; 2] }
    }

    fn read(&mut self) {
        assert_eq!(library::read_capture(&self.stream, &mut self.out, &mut self.stretches, &mut self.report), 0);
    }
}

/// A run of random main data, with its closing code.
fn run(random: &mut Random) -> Bits {
    let mut stream = vec![0; BLOCKS * BLOCK_STREAM + 4];
    let mut record = Record::start();
    for (k, laid) in (0..).zip(stream.chunks_exact_mut(BLOCK_STREAM)) {
        record = write_block(&random.bytes(MAIN), k, record, laid);
    }
    assert_eq!(library::close(&mut record, &mut stream[BLOCKS * BLOCK_STREAM..]), 0);
    bits_of(&stream)
}

/// A bit of every tenth frame dropped.
fn slipped(random: &mut Random, run: &[bool]) -> Bits {
    let mut bits = Vec::new();
    for (i, frame) in run.chunks(FRAME).enumerate() {
        let lost = if i % 10 == 9 { 32 + random.below(FRAME - 32) } else { frame.len() };
        bits.extend(&frame[..lost]);
        bits.extend(frame.iter().skip(lost + 1));
    }
    bits
}

/// As many random bits, in which no SYNC Code stands.
fn noise(random: &mut Random, count: usize) -> Bits {
    let (tables, reader) = (Tables::new(), Reader::new());
    let captures = CaptureReader::new(&tables, &reader);
    loop {
        let bits: Bits = (0..count).map(|_| random.coin()).collect();
        if captures.codes_of(&bits).is_empty() {
            return bits;
        }
    }
}

fn line(work: &str, bits: &[bool], frames: usize) {
    let mut capture = Capture::new(bits);
    let time = seconds(&mut capture, Capture::read);
    assert_eq!(capture.report[0], frames as u64, "{work}");
    println!("| {work} | {:.1} | {} {} |", rate(capture.stream.len(), time), capture.report[0], capture.report[1]);
}

pub fn table(random: &mut Random) {
    println!();
    println!("| capture | MB/s of capture | frames, stretches |");
    println!("|---|---|---|");
    let run = run(random);
    line("capture in step", &run, FRAMES);
    line("capture in step, from bit 1,003 on", &run[1_003..], FRAMES - 1);
    line("capture with a slip in every tenth frame", &slipped(random, &run), FRAMES - FRAMES / 10);
    line("capture of noise without a SYNC Code", &noise(random, run.len()), 0);
}
