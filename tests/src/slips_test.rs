//! Captures of runs (document 02, request 6), by the library and the second implementation: cut at any bit, with slips and noise; and what the theorem says of a
//! stream whose bits between two SYNC Codes are others. capture_test.rs has the call itself.
use crate::block::BLOCK;
use crate::capture::{bits_of, Bits, CaptureReader, Captured, CODE, FRAME, FRAME_BYTES};
use crate::capture_test::{any_codes, compare, noise, noise_below};
use crate::random::Random;
use crate::report::Report;
use crate::run::blocks_of;
use crate::runs_test::random_inputs;
use crate::tables::Tables;
use crate::writing::{permitted_stream, write_run};
use std::ops::Range;

/// A permitted stream as bits, and the bytes that it carries, 91 a frame.
struct Source {
    bits: Bits,
    bytes: Vec<u8>,
}

impl Source {
    /// With choices taken at random, whatever the bytes.
    fn chosen(random: &mut Random, t: &Tables, bytes: Vec<u8>) -> Source {
        let stream = permitted_stream(t, &bytes, random).unwrap();
        Source { bits: bits_of(&stream), bytes }
    }

    /// A run of accepted blocks, by the writer's rule or with choices taken at random.
    fn run(random: &mut Random, t: &Tables, count: usize, is_written: bool) -> Source {
        let bytes = blocks_of(&random_inputs(random, count));
        if is_written {
            Source { bits: bits_of(&write_run(t, &bytes).0), bytes }
        } else {
            Source::chosen(random, t, bytes)
        }
    }

    /// Two runs by the writer, two with random choices.
    fn runs(random: &mut Random, t: &Tables) -> Vec<Source> {
        [(1, true), (2, true), (1, false), (2, false)].map(|(count, is_written)| Source::run(random, t, count, is_written)).into()
    }

    /// SYNC Codes, the closing one too.
    fn codes(&self) -> usize {
        self.bits.len() / FRAME + 1
    }

    fn frame(&self, number: usize) -> &[u8] {
        &self.bytes[FRAME_BYTES * number..][..FRAME_BYTES]
    }

    /// At most so many bits from anywhere.
    fn piece(&self, random: &mut Random, most: usize) -> Bits {
        let length = random.below(most.min(self.bits.len()) + 1);
        let from = random.below(self.bits.len() - length + 1);
        self.bits[from..from + length].to_vec()
    }
}

// ---- the heart: where SYNC Codes stand in a permitted stream

/// Bytes of so many frames: any, one byte again and again, or few bytes in any order.
fn any_bytes(random: &mut Random, count: usize, kind: usize) -> Vec<u8> {
    let few = [(); 4].map(|_| random.byte());
    match kind {
        0..=255 => vec![kind as u8; FRAME_BYTES * count],
        _ if kind % 2 == 0 => (0..FRAME_BYTES * count).map(|_| few[random.below(4)]).collect(),
        _ => random.bytes(FRAME_BYTES * count),
    }
}

/// Full SYNC Codes stand at the starts of frames and nowhere else, so that all frames come back.
fn stands_at_starts(report: &mut Report, random: &mut Random, reader: &CaptureReader, source: &Source) {
    let stand = reader.codes_of(&source.bits);
    let is_due = stand.iter().copied().eq((0..source.codes()).map(|number| FRAME * number));
    report.check(is_due, || format!("{} SYNC Codes for {}", stand.len(), source.codes()));
    let captured = compare(report, random, reader, &source.bits);
    let closing = [[(source.bits.len() - CODE) as u64, CODE as u64]];
    report.check(captured.bytes == source.bytes && captured.stretches == closing, || format!("{:?}", captured.stretches));
}

fn codes_in_permitted_streams(report: &mut Report, random: &mut Random, t: &Tables, reader: &CaptureReader, count: usize) {
    report.begin("capture: SYNC Codes in permitted streams, whatever the bytes");
    for kind in 0..256 + count {
        let bytes = any_bytes(random, 13, kind);
        let source = Source::chosen(random, t, bytes);
        stands_at_starts(report, random, reader, &source);
    }
    let blocks = random.bytes(2 * BLOCK);
    let mut sources = Source::runs(random, t);
    sources.push(Source::chosen(random, t, blocks));
    sources.iter().for_each(|source| stands_at_starts(report, random, reader, source));
    report.end();
}

// ---- captures with slips

/// Up to 40 bits more, or fewer, at any place.
fn slip(random: &mut Random, bits: &mut Bits) {
    let at = random.below(bits.len() + 1);
    if random.coin() {
        bits.splice(at..at, noise_below(random, 41));
    } else {
        let end = (at + random.below(41)).min(bits.len());
        bits.drain(at..end);
    }
}

/// A capture: pieces of a run, cut at any bit, with up to three slips each, and noise between some.
fn slipped(random: &mut Random, source: &Source) -> Bits {
    let mut bits = Vec::new();
    for _ in 0..1 + random.below(3) {
        let mut piece = source.piece(random, 10 * FRAME);
        (0..random.below(4)).for_each(|_| slip(random, &mut piece));
        bits.extend(piece);
        let most = [1, 1, 60, 4_000][random.below(4)];
        bits.extend(noise_below(random, most));
    }
    bits
}

/// How many frames were taken, by the bit of a byte at which they start.
fn count_starts(starts: &mut [usize; 8], captured: &Captured) {
    captured.frames.iter().for_each(|at| starts[at % 8] += 1);
}

fn slips(report: &mut Report, random: &mut Random, t: &Tables, reader: &CaptureReader, count: usize) {
    report.begin("capture: runs cut at any bit, with slips and noise");
    let (sources, mut starts) = (Source::runs(random, t), [0; 8]);
    for i in 0..count {
        let bits = slipped(random, &sources[i % sources.len()]);
        let captured = compare(report, random, reader, &bits);
        count_starts(&mut starts, &captured);
    }
    report.check(starts.iter().all(|&n| n > count / 10), || format!("frames taken, by the bit of a byte: {starts:?}"));
    report.end();
}

/// Each of the 32 codes planted anywhere in a piece of a run, some a frame's length apart, over one another and over true ones.
fn planted(report: &mut Report, random: &mut Random, t: &Tables, reader: &CaptureReader, count: usize) {
    report.begin("capture: SYNC Codes planted in runs");
    let (sources, codes, mut starts) = (Source::runs(random, t), reader.codes(), [0; 8]);
    for i in 0..count {
        let mut bits = sources[i % sources.len()].piece(random, 6 * FRAME);
        let length = bits.len();
        for _ in 0..random.below(8) {
            let at = random.below(length + 1);
            for place in [at, at + FRAME, at + 2 * FRAME].into_iter().take(1 + random.below(3)).filter(|place| place + CODE <= length) {
                bits[place..place + CODE].copy_from_slice(&codes[random.below(32)]);
            }
        }
        let captured = compare(report, random, reader, &bits);
        count_starts(&mut starts, &captured);
    }
    report.check(starts.iter().all(|&n| n > count / 20), || format!("frames taken, by the bit of a byte: {starts:?}"));
    report.end();
}

// ---- the theorem: the bits between two neighbouring SYNC Codes are others

const KINDS: usize = 9;
/// Bits of a frame after its SYNC Code.
const BETWEEN: usize = FRAME - CODE;

/// Other bits for those between two codes: none, a few, as many, about as many, any number, the old ones with slips, ZEROs or ONEs, bits of another place of the
/// run, or noise that begins with the end of a code and ends with the start of one, which may make a code with what stands beside it.
fn others(random: &mut Random, reader: &CaptureReader, source: &Source, old: &[bool], kind: usize) -> Bits {
    let count = [0, random.below(40), BETWEEN, BETWEEN - 40 + random.below(81), random.below(5_000)][kind % 5];
    match kind {
        0..=4 => noise(random, count),
        5 => {
            let mut bits = old.to_vec();
            (0..1 + random.below(3)).for_each(|_| slip(random, &mut bits));
            bits
        }
        6 => vec![random.coin(); random.below(2 * FRAME)],
        7 => source.piece(random, 2 * FRAME),
        _ => {
            let codes = reader.codes();
            let [one, other] = any_codes(random, &codes);
            let middle = noise_below(random, 2 * FRAME);
            [&one[random.below(CODE)..], &middle, &other[..random.below(CODE)]].concat()
        }
    }
}

/// A run in which the bits after one of its SYNC Codes, up to the next, are others.
struct Replaced<'a> {
    source: &'a Source,
    number: usize,
    /// How many they are.
    count: usize,
    bits: Bits,
}

impl<'a> Replaced<'a> {
    /// Drawn again while from that code to the end of the next a further one stands.
    fn random(random: &mut Random, reader: &CaptureReader, source: &'a Source, kind: usize) -> Replaced<'a> {
        let number = random.below(source.codes() - 1);
        let (before, rest) = source.bits.split_at(FRAME * number + CODE);
        loop {
            let others = others(random, reader, source, &rest[..BETWEEN], kind);
            let around = [&before[FRAME * number..], &others, &rest[BETWEEN..][..CODE]].concat();
            if reader.codes_of(&around) == [0, CODE + others.len()] {
                return Replaced { source, number, count: others.len(), bits: [before, &others, &rest[BETWEEN..]].concat() };
            }
        }
    }

    /// Where a code of the run stands now.
    fn place(&self, number: usize) -> usize {
        if number <= self.number {
            FRAME * number
        } else {
            FRAME * number + self.count - BETWEEN
        }
    }

    /// The frames that come back, by their numbers, where these bits are left: both codes are, and as many bits are between them as there were.
    fn due(&self, left: &Range<usize>) -> Vec<usize> {
        let is_left = |number: usize| left.start <= self.place(number) && self.place(number) + CODE <= left.end;
        let is_frame = |number: &usize| *number != self.number || self.count == BETWEEN;
        (0..self.source.codes() - 1).filter(is_frame).filter(|&number| is_left(number) && is_left(number + 1)).collect()
    }

    /// By both: frames are taken at true SYNC Codes alone, and all but the replaced one have the bytes that they had.
    fn is_read(&self, report: &mut Report, random: &mut Random, reader: &CaptureReader, left: Range<usize>) {
        let due = self.due(&left);
        let captured = compare(report, random, reader, &self.bits[left.clone()]);
        let places: Vec<usize> = due.iter().map(|&number| self.place(number) - left.start).collect();
        let is_back = |(number, bytes): (&usize, &[u8])| *number == self.number || bytes == self.source.frame(*number);
        let are_back = due.iter().zip(captured.bytes.chunks(FRAME_BYTES)).all(is_back);
        report.check(captured.frames == places && are_back, || {
            let Replaced { number, count, .. } = self;
            format!("frame {number}, {count} bits, of {left:?}: {} frames for {}", captured.frames.len(), due.len())
        });
    }

    /// Bits from a few frames before the replaced ones, or from any of these on, to a few frames after them.
    fn near(&self, random: &mut Random) -> Range<usize> {
        let next = self.place(self.number + 1);
        let start = next.saturating_sub(random.below(self.count + 4 * FRAME));
        start..(next + random.below(4 * FRAME)).min(self.bits.len())
    }
}

/// The front and the end cut off at any bit near the replaced ones; each tenth time, the front alone at any bit of the run, or nothing.
fn replaced(report: &mut Report, random: &mut Random, t: &Tables, reader: &CaptureReader, count: usize) {
    report.begin("capture: bits between two SYNC Codes replaced");
    let sources = Source::runs(random, t);
    for i in 0..count {
        let replaced = Replaced::random(random, reader, &sources[i % sources.len()], i / 2 % KINDS);
        let near = replaced.near(random);
        replaced.is_read(report, random, reader, near);
        if i % 10 == 0 {
            let front = [0, random.below(replaced.bits.len())][random.below(2)];
            replaced.is_read(report, random, reader, front..replaced.bits.len());
        }
    }
    report.end();
}

pub fn all(report: &mut Report, random: &mut Random, t: &Tables, reader: &CaptureReader) {
    codes_in_permitted_streams(report, random, t, reader, 200);
    slips(report, random, t, reader, 5_000);
    planted(report, random, t, reader, 5_000);
    replaced(report, random, t, reader, 3_600);
}
