//! Captures without a known start (document 02, request 6), by the library and the second implementation: the vectors, captures made bit by bit, and those that are
//! refused. slips_test.rs has captures of runs. The refusal of a capture that is too long, more than 1,099,511,627,776 bytes, is not tried: no memory holds one.
use crate::capture::{bits_of, filled_up, Bits, CaptureReader, Captured, Lent, CODE, FRAME, FRAME_BYTES, FRAME_LAID};
use crate::library;
use crate::random::Random;
use crate::report::Report;
use crate::tables::Tables;
use crate::vectors_test::{load, text};

// ---- one call, by both

/// Stand before and after each lent buffer, and no call changes them.
const AROUND: usize = 16;
const GUARD: u8 = 0xA5;
const GUARD_NUMBER: u64 = 0xA5A5_A5A5_A5A5_A5A5;

fn guarded(lent: &Lent) -> Lent {
    let numbers = |list: &[u64]| [&[GUARD_NUMBER; AROUND], list, &[GUARD_NUMBER; AROUND]].concat();
    Lent {
        out: [&[GUARD; AROUND], &lent.out[..], &[GUARD; AROUND]].concat(),
        stretches: numbers(&lent.stretches),
        report: numbers(&lent.report),
    }
}

fn inside<T>(guarded: &mut [T]) -> &mut [T] {
    let end = guarded.len() - AROUND;
    &mut guarded[AROUND..end]
}

/// Entries by their starts: request 6 leaves their order open.
fn put_in_order(numbers: &mut [u64]) {
    let mut entries: Vec<[u64; 2]> = numbers.chunks(2).map(|entry| [entry[0], entry[1]]).collect();
    entries.sort();
    numbers.copy_from_slice(&entries.concat());
}

/// The library answers this number, which the second implementation has too, and leaves the whole of each buffer as that says.
fn answers(report: &mut Report, capture: &[u8], captured: &Captured, was: &Lent, due: u32) {
    let (number, left) = captured.left(capture.len(), was);
    report.check(number == due, || format!("the second implementation: {number} for {due}"));
    let mut ours = guarded(was);
    let answer = library::read_capture(capture, inside(&mut ours.out), inside(&mut ours.stretches), inside(&mut ours.report));
    if number == 0 {
        put_in_order(&mut inside(&mut ours.stretches)[..2 * captured.stretches.len()]);
    }
    let theirs = guarded(&left);
    report.check(answer == number && ours == theirs, || {
        let is_same = [ours.out == theirs.out, ours.stretches == theirs.stretches, ours.report == theirs.report];
        let lengths = [was.out.len(), was.stretches.len(), was.report.len()];
        format!("{answer} for {number}, {} bytes, lengths {lengths:?}, buffers {is_same:?}, frames at {:?}", capture.len(), captured.frames)
    });
}

/// Buffers of these lengths, full of random numbers.
fn lent(random: &mut Random, [out, stretches, report]: [usize; 3]) -> Lent {
    let mut numbers = |count: usize| (0..count).map(|_| random.next()).collect();
    Lent { stretches: numbers(stretches), report: numbers(report), out: random.bytes(out) }
}

/// The bytes that the buffer for a capture has.
fn room(capture: &[u8]) -> usize {
    FRAME_BYTES * (capture.len() / FRAME_LAID)
}

/// By both, a capture of these bits, with just as many entries as it takes or up to two and a half more.
pub fn compare(report: &mut Report, random: &mut Random, reader: &CaptureReader, bits: &[bool]) -> Captured {
    let capture = filled_up(bits);
    let captured = reader.read(&bits_of(&capture));
    let numbers = 2 * captured.stretches.len() + random.below(6);
    answers(report, &capture, &captured, &lent(random, [room(&capture), numbers, 2]), 0);
    captured
}

/// The same, with the frames settled beforehand.
fn is_taken(report: &mut Report, random: &mut Random, reader: &CaptureReader, bits: &[bool], due: &[usize]) {
    let captured = compare(report, random, reader, bits);
    report.check(captured.frames == due, || format!("frames at {:?} for {due:?}", captured.frames));
}

// ---- the vectors

/// A capture of the vectors: counts and stretches as its text has them, and the frames' bytes.
fn vector(report: &mut Report, reader: &CaptureReader, name: &str) -> (Vec<u8>, Captured) {
    let capture = load(&format!("captures/{name}.capture"));
    let captured = reader.read(&bits_of(&capture));
    let mut told = format!("frames {} stretches {}\n", captured.frames.len(), captured.stretches.len());
    captured.stretches.iter().for_each(|[start, length]| told += &format!("{start} {length}\n"));
    report.check(told == text(&format!("captures/{name}.txt")), || format!("{name}: {told}"));
    report.check(captured.bytes == load(&format!("captures/{name}.bytes")), || format!("{name}: the bytes"));
    (capture, captured)
}

/// Each line of the list by both: entries, bytes of the buffer, and the answer. A number more in the list makes no entry.
fn vectors(report: &mut Report, random: &mut Random, reader: &CaptureReader) {
    report.begin("capture: the vectors");
    let list = text("captures/list.tsv");
    let lines: Vec<&str> = list.lines().skip(1).filter(|line| !line.starts_with('#')).collect();
    for line in &lines {
        let words: Vec<&str> = line.split('\t').collect();
        let [name, entries, buffer, answer] = words[..] else { panic!("{line}") };
        let (capture, captured) = vector(report, reader, name);
        let number = answer.strip_prefix("refused ").map_or(0, |number| number.parse().unwrap());
        let counts = format!("frames {} stretches {}", captured.frames.len(), captured.stretches.len());
        report.check(number != 0 || answer == counts, || format!("{line}: {counts}"));
        for more in 0..2 {
            let sizes = [buffer.parse().unwrap(), 2 * entries.parse::<usize>().unwrap() + more, 2];
            answers(report, &capture, &captured, &lent(random, sizes), number);
        }
    }
    report.check(lines.len() == 103, || format!("{} lines", lines.len()));
    report.end();
}

// ---- captures made bit by bit

pub fn noise(random: &mut Random, count: usize) -> Bits {
    (0..count).map(|_| random.coin()).collect()
}

/// Fewer random bits than this.
pub fn noise_below(random: &mut Random, limit: usize) -> Bits {
    let count = random.below(limit);
    noise(random, count)
}

/// Some of the 32 codes.
pub fn any_codes<'a, const N: usize>(random: &mut Random, codes: &'a [Bits]) -> [&'a [bool]; N] {
    [(); N].map(|_| &codes[random.below(codes.len())][..])
}

/// The 91 words of a frame, most of them from the tables.
fn words(random: &mut Random, t: &Tables) -> Bits {
    let word = |random: &mut Random| match random.below(8) {
        0 => random.next() as u16,
        1 => t.sub[random.below(88)][random.below(4)].word,
        _ => t.main[random.below(256)][random.below(4)].word,
    };
    let halves: Vec<u8> = (0..FRAME_BYTES).flat_map(|_| word(random).to_be_bytes()).collect();
    bits_of(&halves)
}

/// A code, the words of a frame and another code, after so many random bits.
fn framed(random: &mut Random, t: &Tables, before: usize, first: &[bool], second: &[bool]) -> Bits {
    [noise(random, before), first.to_vec(), words(random, t), second.to_vec()].concat()
}

fn each_pair_of_codes(report: &mut Report, random: &mut Random, t: &Tables, reader: &CaptureReader) {
    report.begin("capture: each SYNC Code and each after it, at each bit of a byte");
    let codes = reader.codes();
    for (number, before) in (0..1_024).flat_map(|number| (0..8).map(move |before| (number, before))) {
        let mut bits = framed(random, t, before, &codes[number / 32], &codes[number % 32]);
        bits.extend(noise_below(random, 20));
        is_taken(report, random, reader, &bits, &[before]);
    }
    report.end();
}

/// With a wrong bit it is no code, or another of the 32, wherever it stands of the two.
fn wrong_bits(report: &mut Report, random: &mut Random, t: &Tables, reader: &CaptureReader) {
    report.begin("capture: each SYNC Code with each bit wrong");
    let codes = reader.codes();
    let mut others = 0;
    for (code, bit) in codes.iter().flat_map(|code| (0..CODE).map(move |bit| (code, bit))) {
        let mut wrong = code.clone();
        wrong[bit] = !wrong[bit];
        let [right] = any_codes(random, &codes);
        let due: &[usize] = if codes.contains(&wrong) { &[3] } else { &[] };
        others += due.len();
        let pairs = [framed(random, t, 3, &wrong, right), framed(random, t, 3, right, &wrong)];
        pairs.iter().for_each(|bits| is_taken(report, random, reader, bits, due));
    }
    report.check(others > 0, || "no code is a bit from another".into());
    report.end();
}

/// One code over the last bits of another, where they agree, and a frame later the pair again, the first alone or the second alone: the look takes the first of them
/// that is closed.
fn shared_bits(report: &mut Report, random: &mut Random, t: &Tables, reader: &CaptureReader, one: &[bool], other: &[bool], shift: usize) {
    let (before, spare) = (random.below(8), noise(random, shift));
    let pair = [&one[..shift], other].concat();
    let closings = [(&pair[..], before), (one, before), (&[&spare, other].concat(), before + shift)];
    for (closing, due) in closings {
        let mut bits = framed(random, t, before, &pair[..CODE], closing);
        bits[before + CODE..][..shift].copy_from_slice(&pair[CODE..]);
        is_taken(report, random, reader, &bits, &[due]);
    }
}

fn overlapping_codes(report: &mut Report, random: &mut Random, t: &Tables, reader: &CaptureReader) {
    report.begin("capture: SYNC Codes that share bits, each pair");
    let codes = reader.codes();
    let mut pairs = 0;
    for (number, shift) in (0..1_024).flat_map(|number| (1..CODE).map(move |shift| (number, shift))) {
        let (one, other) = (&codes[number / 32], &codes[number % 32]);
        if one[shift..] == other[..CODE - shift] {
            shared_bits(report, random, t, reader, one, other, shift);
            pairs += 1;
        }
    }
    report.check(pairs == 1_120, || format!("{pairs} pairs"));
    report.end();
}

/// As many bits as a frame, full of codes: one after the other, over the last bits of the one before where they agree, and after noise.
fn crowd(random: &mut Random, codes: &[Bits]) -> Bits {
    let mut bits = Vec::new();
    while bits.len() < FRAME {
        let [code] = any_codes(random, codes);
        let shared = (0..CODE).rev().find(|&count| bits.ends_with(&code[..count])).unwrap();
        match random.below(3) {
            0 => bits.extend(noise_below(random, 200)),
            1 => bits.extend(code),
            _ => bits.extend(&code[shared..]),
        }
    }
    bits.truncate(FRAME);
    bits
}

/// Such bits again and again, with a few of them wrong and a slip now and then: the look has many frames to choose from.
fn crowds(report: &mut Report, random: &mut Random, reader: &CaptureReader, count: usize) {
    report.begin("capture: SYNC Codes everywhere");
    let (codes, mut taken, mut starts) = (reader.codes(), 0, [0; 8]);
    for _ in 0..count {
        let crowd = crowd(random, &codes);
        let from = random.below(FRAME);
        let mut bits = crowd[from..].to_vec();
        for _ in 0..1 + random.below(5) {
            bits.extend(&crowd);
            for _ in 0..random.below(8) {
                let at = random.below(bits.len());
                bits[at] = !bits[at];
            }
            bits.truncate(bits.len() - [0, 0, 0, 1][random.below(4)]);
        }
        let captured = compare(report, random, reader, &bits);
        taken += captured.frames.len();
        captured.frames.iter().for_each(|at| starts[at % 8] += 1);
    }
    report.check(taken > count && starts.iter().all(|&n| n > 0), || format!("{taken} frames, by the bit of a byte {starts:?}"));
    report.end();
}

/// The second code, or the third, is cut after each of its bits: then it is none, and what is filled up with ZEROs does not make it one.
fn ends(report: &mut Report, random: &mut Random, t: &Tables, reader: &CaptureReader) {
    report.begin("capture: the last SYNC Code cut after each of its bits");
    let codes = reader.codes();
    for (before, kept) in (0..16).flat_map(|before| (0..=CODE).map(move |kept| (before, kept))) {
        let [first, second, third] = any_codes(random, &codes);
        let is_closed = kept == CODE;
        let mut bits = framed(random, t, before, first, second);
        bits.truncate(before + FRAME + kept);
        is_taken(report, random, reader, &bits, &[before][..usize::from(is_closed)]);
        let mut bits = [&framed(random, t, before, first, second)[..], &words(random, t), third].concat();
        bits.truncate(before + 2 * FRAME + kept);
        is_taken(report, random, reader, &bits, &[before, before + FRAME][..1 + usize::from(is_closed)]);
    }
    report.end();
}

/// No byte, each byte, and ZEROs and ONEs of every length up to some frames.
fn plain(report: &mut Report, random: &mut Random, reader: &CaptureReader) {
    report.begin("capture: no byte, one byte, ZEROs and ONEs");
    let empty = compare(report, random, reader, &[]);
    report.check(empty.stretches.is_empty() && empty.frames.is_empty(), || "the empty capture".into());
    let lengths = (1..=3 * FRAME_LAID + 8).flat_map(|length| [0x00, 0xFF].map(|byte| vec![byte; length]));
    for capture in (0..=255).map(|byte| vec![byte]).chain(lengths) {
        let captured = compare(report, random, reader, &bits_of(&capture));
        let is_whole = captured.stretches == [[0, 8 * capture.len() as u64]];
        report.check(is_whole, || format!("{} bytes: {:?}", capture.len(), captured.stretches));
    }
    report.end();
}

fn random_bits(report: &mut Report, random: &mut Random, reader: &CaptureReader, count: usize) {
    report.begin("capture: random bits");
    for _ in 0..count {
        let length = random.below(24_000);
        let bits = noise(random, length);
        compare(report, random, reader, &bits);
    }
    report.end();
}

// ---- refusals

/// A capture of so many bytes, with a frame wherever one and its closing code fit.
fn of_bytes(random: &mut Random, t: &Tables, reader: &CaptureReader, count: usize) -> (Vec<u8>, Captured) {
    let codes = reader.codes();
    let frame = |_| {
        let [code] = any_codes(random, &codes);
        [code, &words(random, t)].concat()
    };
    let capture = filled_up(&(0..=count / FRAME_LAID).flat_map(frame).take(8 * count).collect::<Bits>());
    let captured = reader.read(&bits_of(&capture));
    (capture, captured)
}

/// Number 1 for every length of the buffer near the one that is stated, and for any of the report; also where there are too few entries: 1 goes before 14.
fn other_lengths(report: &mut Report, random: &mut Random, t: &Tables, reader: &CaptureReader) {
    report.begin("capture: refusal 1");
    for count in (0..6).flat_map(|k| [0, 1, 4, 5, 185].map(|more| FRAME_LAID * k + more)) {
        let (capture, captured) = of_bytes(random, t, reader, count);
        let due = room(&capture);
        let near = (due.saturating_sub(100)..due + 100).filter(|&length| length != due);
        let others = near.chain([2 * due + 1, capture.len() + 91, 8 * capture.len() + 91]).map(|length| (length, 2));
        let reports = (0..8).filter(|&numbers| numbers != 2).flat_map(|numbers| [due, due + 1].map(|length| (length, numbers)));
        for (length, numbers) in others.chain(reports) {
            let entries = random.below(6);
            answers(report, &capture, &captured, &lent(random, [length, entries, numbers]), 1);
        }
    }
    report.end();
}

/// Frames apart from one another: noise before each and after the last, so many stretches in all.
fn apart(random: &mut Random, t: &Tables, reader: &CaptureReader, stretches: usize) -> Bits {
    let codes = reader.codes();
    let mut bits = Vec::new();
    for _ in 1..stretches {
        let [first, second] = any_codes(random, &codes);
        let before = 1 + random.below(300);
        bits.extend(framed(random, t, before, first, second));
    }
    let after = 1 + random.below(300);
    bits.extend(noise(random, after));
    bits
}

/// Number 14 for every number of entries that is too small, a number left over being none; from as many as it takes on the rest of the list is kept.
fn entries(report: &mut Report, random: &mut Random, t: &Tables, reader: &CaptureReader) {
    report.begin("capture: refusal 14, and entries to spare");
    for stretches in (0..20).flat_map(|stretches| [stretches; 4]) {
        let bits = if stretches == 0 { Vec::new() } else { apart(random, t, reader, stretches) };
        let capture = filled_up(&bits);
        let captured = reader.read(&bits_of(&capture));
        report.check(captured.stretches.len() == stretches, || format!("{} stretches for {stretches}", captured.stretches.len()));
        for numbers in 0..2 * stretches + 9 {
            let due = if numbers / 2 < stretches { 14 } else { 0 };
            answers(report, &capture, &captured, &lent(random, [room(&capture), numbers, 2]), due);
        }
    }
    report.end();
}

pub fn all(report: &mut Report, random: &mut Random, t: &Tables, reader: &CaptureReader) {
    vectors(report, random, reader);
    plain(report, random, reader);
    random_bits(report, random, reader, 500);
    each_pair_of_codes(report, random, t, reader);
    wrong_bits(report, random, t, reader);
    overlapping_codes(report, random, t, reader);
    crowds(report, random, reader, 4_000);
    ends(report, random, t, reader);
    other_lengths(report, random, t, reader);
    entries(report, random, t, reader);
}
