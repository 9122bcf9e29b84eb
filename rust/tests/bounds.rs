//! No call touches a byte outside what it was lent: every length from 0 to a bit past the stated one, and random bytes and records, with guard bytes around each
//! buffer. `CHAMANZIL_EXACT=1` leaves the guards out, so that memcheck sees each byte outside a heap block; `CHAMANZIL_STRIDE=n` takes every n-th length.
mod common;

use chamanzil::slices;
use chamanzil::{LightOutcome, Outcome, Record, Refusal, Stretch};
use chamanzil::{
    BLOCK, BLOCK_STREAM, CLOSING, FRAME, FRAME_STREAM, MAIN, RUN_SECTORS, SECTOR, SECTOR_READ,
    SECTOR_STREAM, STREAM,
};
use common::{entries, from_bit, stream_of, Numbers, FRAME_BITS};
use std::env;
use std::fmt::Debug;

/// Sectors of a block.
const BLOCK_SECTORS: u32 = 16;

fn guard() -> usize {
    if env::var_os("CHAMANZIL_EXACT").is_some() {
        0
    } else {
        64
    }
}

fn stride() -> usize {
    env::var("CHAMANZIL_STRIDE").map_or(1, |n| n.parse().unwrap())
}

/// A buffer that starts as the first bytes of a pattern, with guards before and after it, in a heap block of just that size.
struct Buffer<T> {
    all: Vec<T>,
    guard: usize,
    mark: T,
}

impl<T: Copy + PartialEq + Debug> Buffer<T> {
    fn new(pattern: &[T], len: usize, mark: T) -> Self {
        let guard = guard();
        let mut all = vec![mark; len + 2 * guard];
        all.shrink_to_fit();
        all[guard..guard + len].copy_from_slice(&pattern[..len]);
        Buffer { all, guard, mark }
    }

    fn lend(&mut self) -> &mut [T] {
        let end = self.all.len() - self.guard;
        &mut self.all[self.guard..end]
    }

    fn guards_hold(&self) {
        let end = self.all.len() - self.guard;
        assert!(
            self.all[..self.guard].iter().all(|x| *x == self.mark),
            "before the buffer"
        );
        assert!(
            self.all[end..].iter().all(|x| *x == self.mark),
            "after the buffer"
        );
    }

    fn is_as_it_was(&mut self, pattern: &[T]) {
        self.guards_hold();
        let held = self.lend();
        let len = held.len();
        assert!(
            held == &pattern[..len],
            "{len} bytes, changed by a refused call"
        );
    }
}

/// Every length but the stated one, to three past it.
fn lengths(stated: usize) -> impl Iterator<Item = usize> {
    let step = stride();
    (0..stated + 4).filter(move |n| *n != stated && (n % step == 0 || *n < 20 || n + 20 > stated))
}

/// Calls with one buffer of another length: all are refused with 1, and leave everything.
fn sweep(stated: &[usize], mut call: impl FnMut(&mut [Buffer<u8>]) -> Result<(), Refusal>) {
    let pattern = Numbers::new(1).bytes(STREAM + 8);
    let made = |n: &usize| Buffer::new(&pattern, *n, 0xA5);
    let mut buffers: Vec<_> = stated.iter().map(made).collect();
    for which in 0..stated.len() {
        for n in lengths(stated[which]) {
            buffers[which] = made(&n);
            assert_eq!(
                call(&mut buffers),
                Err(Refusal::Length),
                "buffer {which}, length {n}"
            );
            for buffer in &mut buffers {
                buffer.is_as_it_was(&pattern);
            }
        }
        buffers[which] = made(&stated[which]);
    }
}

/// The same of a report.
fn sweep_report<T: Copy + PartialEq + Debug + From<u32>>(
    stated: usize,
    mut call: impl FnMut(&mut [T]) -> Result<(), Refusal>,
) {
    let pattern: Vec<T> = (100..200).map(T::from).collect();
    for n in (0..40).filter(|n| *n != stated) {
        let mut report = Buffer::new(&pattern, n, T::from(0xA5A5_A5A5));
        assert_eq!(
            call(report.lend()),
            Err(Refusal::Length),
            "report, length {n}"
        );
        report.is_as_it_was(&pattern);
    }
}

/// Calls with every length as stated and other bytes each time.
fn rounds(
    count: usize,
    stated: &[usize],
    mut call: impl FnMut(&mut [Buffer<u8>], &mut [u32], &mut Numbers),
) {
    let mut numbers = Numbers::new(2);
    let most = stated.iter().copied().max().unwrap_or(0);
    for _ in 0..count {
        let pattern = numbers.bytes(most);
        let mut buffers: Vec<_> = stated
            .iter()
            .map(|n| Buffer::new(&pattern, *n, 0xA5))
            .collect();
        let mut report = Buffer::new(&[9; 8], 8, 0xA5A5_A5A5);
        call(&mut buffers, report.lend(), &mut numbers);
        buffers.iter().for_each(Buffer::guards_hold);
        report.guards_hold();
    }
}

#[test]
fn encode_and_format() {
    let sizes = [MAIN, BLOCK];
    sweep(&sizes, |b| {
        let [main, out] = b else { unreachable!() };
        slices::encode_block(main.lend(), None, 16, 0, out.lend())
    });
    let sizes = [MAIN, STREAM];
    sweep(&sizes, |b| {
        let [main, out] = b else { unreachable!() };
        slices::format_block(main.lend(), 16, 0, out.lend())
    });
    rounds(10, &[MAIN, BLOCK, STREAM], |b, _, numbers| {
        let [main, block, stream] = b else {
            unreachable!()
        };
        let first = u32::try_from(numbers.next() & 0x01FF_FFF8).unwrap();
        let info = numbers.byte() & 0x3D;
        let answer = slices::encode_block(main.lend(), None, first, info, block.lend());
        assert_eq!(
            slices::format_block(main.lend(), first, info, stream.lend()),
            answer
        );
        let previous = Some(first.wrapping_sub(16));
        assert_eq!(
            slices::encode_block(main.lend(), previous, first, info, block.lend()),
            if first == 0 {
                Err(Refusal::Sequence)
            } else {
                answer
            }
        );
    });
}

#[test]
fn write_block() {
    let mut record = Record::new();
    sweep(&[MAIN, BLOCK_STREAM], |b| {
        let [main, out] = b else { unreachable!() };
        slices::write_block(&mut record, Some(0), main.lend(), 16, 0, out.lend())
    });
    assert_eq!(record, Record::new());
    rounds(
        if stride() == 1 { 500 } else { 20 },
        &[MAIN, BLOCK_STREAM],
        |b, _, numbers| {
            let [main, out] = b else { unreachable!() };
            let old = any_record(numbers);
            let mut written = old;
            let was = out.lend().to_vec();
            let answer = slices::write_block(&mut written, None, main.lend(), 16, 0, out.lend())
                .map_or_else(Refusal::number, |()| 0);
            assert_eq!(answer, due(old, BLOCK_SECTORS), "{old:?}");
            if answer == 0 {
                assert_eq!(written.sectors, old.sectors + BLOCK_SECTORS);
            } else {
                assert!(written == old && out.lend() == was, "{old:?}");
            }
        },
    );
}

/// How many marks there are, each 0 or 1.
fn count_marks(erasures: &[u8]) -> u32 {
    assert!(erasures.iter().all(|mark| *mark <= 1));
    erasures.iter().map(|mark| u32::from(*mark)).sum()
}

/// Turns random bytes into marks, one in so many.
fn to_marks(erasures: &mut [u8], of: u8) {
    for mark in erasures {
        *mark = u8::from(*mark % of == 0);
    }
}

#[test]
fn read_sector() {
    let mut two = [0; 2];
    sweep(&[SECTOR_READ, SECTOR, SECTOR], |b| {
        let [stream, out, erasures] = b else {
            unreachable!()
        };
        slices::read_sector(stream.lend(), out.lend(), erasures.lend(), &mut two)
    });
    let (stream, mut out, mut erasures) = ([0; SECTOR_READ], [0; SECTOR], [0; SECTOR]);
    sweep_report(2, |report| {
        slices::read_sector(&stream, &mut out, &mut erasures, report)
    });
    rounds(100, &[SECTOR_READ, SECTOR, SECTOR], |b, report, _| {
        let [stream, out, erasures] = b else {
            unreachable!()
        };
        let two = &mut report[..2];
        slices::read_sector(stream.lend(), out.lend(), erasures.lend(), two).unwrap();
        assert_eq!(count_marks(erasures.lend()), two[0]);
    });
}

/// In the sweep the marks are random bytes too: 1 goes before 11.
#[test]
fn repair_block() {
    let mut six = [0; 6];
    sweep(&[BLOCK, BLOCK, MAIN], |b| {
        let [block, erasures, main] = b else {
            unreachable!()
        };
        slices::repair_block(block.lend(), erasures.lend(), main.lend(), &mut six)
    });
    let (mut block, erasures, mut main) = (vec![0; BLOCK], vec![0; BLOCK], vec![0; MAIN]);
    sweep_report(6, |report| {
        slices::repair_block(&mut block, &erasures, &mut main, report)
    });
    rounds(9, &[BLOCK, BLOCK, MAIN], |b, report, numbers| {
        let [block, erasures, main] = b else {
            unreachable!()
        };
        let six = &mut report[..6];
        let answer = slices::repair_block(block.lend(), erasures.lend(), main.lend(), six);
        assert_eq!(answer, Err(Refusal::Erasure));
        to_marks(erasures.lend(), [1, 20, 255][numbers.below(3)]);
        let was = erasures.lend().to_vec();
        let answer = slices::repair_block(block.lend(), erasures.lend(), main.lend(), six);
        assert!((4..=6).contains(&answer.unwrap_err().number()));
        assert!(erasures.lend() == was, "the marks are only read");
    });
}

/// A place of two readings pooled, by the paper: each a byte and its mark.
fn pooled(first: (u8, u8), second: (u8, u8)) -> (u8, u8) {
    match (first, second) {
        ((a, 0), (b, 0)) if a == b => (a, 0),
        ((byte, 0), (_, 1)) | ((_, 1), (byte, 0)) => (byte, 0),
        _ => (0, 1),
    }
}

fn with_marks(bytes: &[u8], erasures: &[u8]) -> Vec<(u8, u8)> {
    bytes
        .iter()
        .copied()
        .zip(erasures.iter().copied())
        .collect()
}

/// In the sweep the marks are random bytes here too. In the rounds the readings are equal at first, and then differ at some places.
#[test]
fn pool() {
    sweep(&[BLOCK; 4], |b| {
        let [bytes, erasures, second, marks] = b else {
            unreachable!()
        };
        slices::pool(bytes.lend(), erasures.lend(), second.lend(), marks.lend())
    });
    rounds(9, &[BLOCK; 4], |b, _, numbers| {
        let [bytes, erasures, second, marks] = b else {
            unreachable!()
        };
        let (bytes, erasures, second, marks) =
            (bytes.lend(), erasures.lend(), second.lend(), marks.lend());
        let refused = Err(Refusal::Erasure);
        assert_eq!(slices::pool(bytes, erasures, second, marks), refused);
        to_marks(erasures, [1, 2, 20][numbers.below(3)]);
        assert_eq!(slices::pool(bytes, erasures, second, marks), refused);
        marks.copy_from_slice(&numbers.bytes(BLOCK));
        to_marks(marks, [1, 2, 20][numbers.below(3)]);
        second.iter_mut().step_by(3).for_each(|byte| *byte ^= 1);

        let (first, other) = (with_marks(bytes, erasures), with_marks(second, marks));
        let due = first.iter().zip(&other).map(|(a, b)| pooled(*a, *b));
        slices::pool(bytes, erasures, second, marks).unwrap();
        assert!(due.eq(with_marks(bytes, erasures)));
        assert!(with_marks(second, marks) == other, "the second stays");
    });
}

#[test]
fn read_block() {
    let mut eight = [0; 8];
    sweep(&[STREAM, BLOCK, BLOCK, MAIN], |b| {
        let [stream, block, erasures, main] = b else {
            unreachable!()
        };
        let (stream, block) = (stream.lend(), block.lend());
        slices::read_block(stream, block, erasures.lend(), main.lend(), &mut eight)
    });
    let (stream, mut main) = (vec![0; STREAM], vec![0; MAIN]);
    let (mut block, mut erasures) = (vec![0; BLOCK], vec![0; BLOCK]);
    sweep_report(8, |report| {
        slices::read_block(&stream, &mut block, &mut erasures, &mut main, report)
    });
    rounds(3, &[STREAM, BLOCK, BLOCK, MAIN], |b, report, _| {
        let [stream, block, erasures, main] = b else {
            unreachable!()
        };
        let (stream, block) = (stream.lend(), block.lend());
        let answer = slices::read_block(stream, block, erasures.lend(), main.lend(), report);
        assert!((4..=6).contains(&answer.unwrap_err().number()));
        assert!(count_marks(erasures.lend()) > 0);
    });
}

/// A capture: frames of a stream from any bit on, or random bytes, to any byte.
fn any_capture(numbers: &mut Numbers, stream: &[u8]) -> Vec<u8> {
    let count = numbers.below(6 * FRAME_STREAM);
    if numbers.below(4) == 0 {
        return numbers.bytes(count);
    }
    let from = numbers.below(20 * FRAME_BITS);
    from_bit(stream, from)[..count].to_vec()
}

/// Stretches, in order, and frames make up all bits: no two stretches touch, and between two there are whole frames.
fn make_up(found: &[Stretch], frames: u64, bits: u64) {
    let frame = u64::try_from(FRAME_BITS).unwrap();
    let mut end = 0;
    for (i, stretch) in found.iter().enumerate() {
        let taken = stretch.start.checked_sub(end).unwrap();
        assert!(stretch.bits > 0 && taken % frame == 0 && (taken > 0 || i == 0));
        end = stretch.start + stretch.bits;
    }
    let free: u64 = found.iter().map(|stretch| stretch.bits).sum();
    assert_eq!((end, free + frame * frames), (bits, bits));
}

/// A call on a capture with a list of so many numbers: what it fills makes up the capture, and the rest stays, as everything does after 14.
fn capture_within(capture: &[u8], size: usize, bytes: &[u8], numbers: &[u64]) {
    let length = FRAME * (capture.len() / FRAME_STREAM);
    let mut stream = Buffer::new(capture, capture.len(), 0xA5);
    let mut out = Buffer::new(bytes, length, 0xA5);
    let mut list = Buffer::new(numbers, size, 0xA5A5);
    let mut report = Buffer::new(numbers, 2, 0xA5A5);
    let (o, s, r) = (out.lend(), list.lend(), report.lend());
    let answer = slices::read_capture(stream.lend(), o, s, r);
    stream.is_as_it_was(capture);
    if answer.is_err() {
        assert_eq!(answer, Err(Refusal::Stretches));
        out.is_as_it_was(bytes);
        list.is_as_it_was(numbers);
        report.is_as_it_was(numbers);
        return;
    }
    let counts: Vec<usize> = r.iter().map(|n| usize::try_from(*n).unwrap()).collect();
    let (taken, found) = (FRAME * counts[0], 2 * counts[1]);
    let bits = 8 * u64::try_from(capture.len()).unwrap();
    make_up(&entries(&s[..found]), r[0], bits);
    assert!(o[taken..] == bytes[taken..length] && s[found..] == numbers[found..size]);
    out.guards_hold();
    list.guards_hold();
    report.guards_hold();
}

#[test]
fn read_capture() {
    let stream = stream_of(&common::buffer(7));
    let mut numbers = Numbers::new(4);
    let bytes = numbers.bytes(6 * FRAME);
    let list: Vec<u64> = (0..12).map(|_| numbers.next()).collect();
    for _ in 0..if stride() == 1 { 20_000 } else { 300 } {
        let capture = any_capture(&mut numbers, &stream[..]);
        capture_within(&capture, numbers.below(12), &bytes, &list);
    }
}

/// Every length of the buffer but the stated one, and of the report.
#[test]
fn read_capture_of_other_lengths() {
    let stream = stream_of(&common::buffer(7));
    for length in [0, 1, FRAME_STREAM, 5 * FRAME_STREAM + 20] {
        let (capture, size) = (&stream[..length], FRAME * (length / FRAME_STREAM));
        let (mut list, mut two) = ([9; 12], [9; 2]);
        sweep(&[size], |b| {
            slices::read_capture(capture, b[0].lend(), &mut list, &mut two)
        });
        let mut out = vec![9; size];
        sweep_report(2, |report| {
            slices::read_capture(capture, &mut out, &mut list, report)
        });
        assert!(list == [9; 12] && two == [9; 2] && out == vec![9; size]);
    }
}

#[test]
fn rows_columns_and_words() {
    sweep(&[172, 10], |b| {
        let [word, out] = b else { unreachable!() };
        slices::row_parity(word.lend(), out.lend())
    });
    sweep(&[192, 16], |b| {
        let [word, out] = b else { unreachable!() };
        slices::column_parity(word.lend(), out.lend())
    });
    sweep(&[4, 2], |b| {
        let [id, out] = b else { unreachable!() };
        slices::ied(id.lend(), out.lend())
    });
    sweep(&[208], |b| slices::correct_column(b[0].lend()).map(|_| ()));
    sweep(&[182], |b| {
        slices::correct_light_row(b[0].lend()).map(|_| ())
    });
    rounds(200, &[172, 10, 192, 16, 4, 2, 208], |b, _, numbers| {
        let [row, ten, column, sixteen, id, two, whole_column] = b else {
            unreachable!()
        };
        slices::row_parity(row.lend(), ten.lend()).unwrap();
        slices::column_parity(column.lend(), sixteen.lend()).unwrap();
        slices::ied(id.lend(), two.lend()).unwrap();
        slices::correct_column(whole_column.lend()).unwrap();
        let [a, b, c, d, ..] = numbers.next().to_le_bytes();
        let _ = chamanzil::read_word(u16::from_le_bytes([a, b]), u16::from_le_bytes([c, d]));
    });
    let pattern = Numbers::new(3).bytes(STREAM + 8);
    for n in lengths(STREAM).step_by(997).chain([STREAM]) {
        let mut stream = Buffer::new(&pattern, n, 0xA5);
        let _ = chamanzil::zero_runs_hold(stream.lend());
        stream.is_as_it_was(&pattern);
    }
    for n in 0..40 {
        let mut bytes = Buffer::new(&pattern, n, 0xA5);
        assert!(!chamanzil::closing_holds(bytes.lend()));
        bytes.is_as_it_was(&pattern);
    }
}

/// Rows with marks of every number around ten.
#[test]
fn rows_with_marks() {
    sweep(&[182, 182], |b| {
        let [row, erasures] = b else { unreachable!() };
        slices::correct_row(row.lend(), erasures.lend()).map(|_| ())
    });
    rounds(600, &[182, 182], |b, _, numbers| {
        let [row, erasures] = b else { unreachable!() };
        let answer = slices::correct_row(row.lend(), erasures.lend());
        assert_eq!(answer, Err(Refusal::Erasure));
        to_marks(erasures.lend(), [1, 12, 18, 40, 255][numbers.below(5)]);
        let (was, marks) = (row.lend().to_vec(), erasures.lend().to_vec());
        let outcome = slices::correct_row(row.lend(), erasures.lend()).unwrap();
        assert!(erasures.lend() == marks, "the marks are only read");
        assert_eq!(outcome == Outcome::Corrected, row.lend() != was);
        assert!(count_marks(&marks) <= 10 || outcome == Outcome::Uncorrectable);
    });
}

/// Rows of zeros, which are a code row, with none to four wrong bytes.
#[test]
fn light_rows() {
    rounds(600, &[182], |b, _, numbers| {
        let row = b[0].lend();
        row.fill(0);
        let wrong = numbers.below(5);
        for (i, value) in [3, 7, 1, 9][..wrong].iter().enumerate() {
            row[(numbers.below(40) + 45 * i) % 182] = *value;
        }
        let was = row.to_vec();
        let outcome = slices::correct_light_row(row).unwrap();
        let (due, after) = if wrong <= 2 {
            (LightOutcome::Repaired, vec![0; 182])
        } else {
            (LightOutcome::Heavier, was)
        };
        assert_eq!((outcome, row.to_vec()), (due, after), "{wrong} wrong");
    });
}

/// Whether a run may be closed after so many sectors.
fn closes(sectors: u32) -> bool {
    sectors > 0 && sectors % BLOCK_SECTORS == 0
}

/// The papers' numbers 9 and 7 for so many sectors more, from the record alone.
fn due(r: Record, count: u32) -> u8 {
    let (most, closing) = (
        38_688 * i128::from(r.sectors),
        if r.closed { 32 } else { 0 },
    );
    let (dsv, peak) = (i128::from(r.dsv).abs(), i128::from(r.peak));
    let sound = (1..=4).contains(&r.state)
        && r.level <= 1
        && r.sectors <= RUN_SECTORS
        && (!r.closed || closes(r.sectors))
        && dsv <= most + closing
        && dsv <= peak + closing
        && peak <= most;
    let fits = u64::from(r.sectors) + u64::from(count) <= u64::from(RUN_SECTORS);
    match (sound, r.closed || !fits) {
        (false, _) => 9,
        (true, true) => 7,
        (true, false) => 0,
    }
}

/// Those of closing, with 8.
fn due_closing(r: Record) -> u8 {
    match due(r, 0) {
        0 if !closes(r.sectors) => 8,
        number => number,
    }
}

fn any_record(numbers: &mut Numbers) -> Record {
    let few = u32::try_from(numbers.below(40)).unwrap();
    let sectors = [few, few, RUN_SECTORS - 34 + few, u32::MAX][numbers.below(4)];
    let edge = 38_688 * i64::from(sectors);
    let dsv = match numbers.below(6) {
        0 => 0,
        1 => edge - 2 + i64::try_from(numbers.below(40)).unwrap(),
        2 => -edge + 2 - i64::try_from(numbers.below(40)).unwrap(),
        3 => i64::from_le_bytes(numbers.next().to_le_bytes()),
        4 => [i64::MIN, i64::MAX][numbers.below(2)],
        _ => i64::try_from(numbers.below(400)).unwrap() - 200,
    };
    Record {
        state: [1, 2, 3, 4, 1, 2, 0, 5, 255][numbers.below(9)],
        level: [0, 1, 0, 1, 2, 255][numbers.below(6)],
        dsv,
        sectors,
        closed: numbers.below(4) == 0,
        peak: match numbers.below(5) {
            0 => dsv.unsigned_abs().saturating_sub(32),
            1 => edge.unsigned_abs() + 1,
            2 => numbers.next(),
            _ => dsv.unsigned_abs(),
        },
        marked: numbers.below(2) == 0,
        mark: i64::from_le_bytes(numbers.next().to_le_bytes()),
    }
}

#[test]
fn records() {
    let mut record = Record::new();
    sweep(&[SECTOR, SECTOR_STREAM], |b| {
        let [bytes, out] = b else { unreachable!() };
        slices::trial(&mut record, bytes.lend(), out.lend()).map(drop)
    });
    sweep(&[SECTOR, SECTOR_STREAM], |b| {
        let [bytes, out] = b else { unreachable!() };
        slices::take(&mut record, bytes.lend(), out.lend())
    });
    sweep(&[BLOCK, BLOCK_STREAM], |b| {
        let [block, out] = b else { unreachable!() };
        slices::write_sectors(&mut record, block.lend(), out.lend())
    });
    sweep(&[CLOSING], |b| slices::close(&mut record, b[0].lend()));
    assert_eq!(record, Record::new());
    rounds(
        if stride() == 1 { 3000 } else { 100 },
        &[SECTOR, SECTOR_STREAM, CLOSING],
        |b, _, numbers| {
            let [bytes, out, four] = b else {
                unreachable!()
            };
            let old = any_record(numbers);
            let (mut tried, mut closed) = (old, old);
            let trial = slices::trial(&mut tried, bytes.lend(), out.lend())
                .map_or_else(Refusal::number, |_| 0);
            let mut written = tried;
            let sector = slices::take(&mut written, bytes.lend(), out.lend())
                .map_or_else(Refusal::number, |()| 0);
            let closing =
                slices::close(&mut closed, four.lend()).map_or_else(Refusal::number, |()| 0);
            assert_eq!(
                (trial, sector, closing),
                (due(old, 1), due(old, 1), due_closing(old)),
                "{old:?}"
            );
            let (marked, mark) = (old.marked, old.mark);
            let unmarked = Record {
                marked,
                mark,
                ..tried
            };
            assert!(unmarked == old && (tried == old || trial == 0 && tried.marked));
            assert!(written == old || (sector == 0 && written.sectors == old.sectors + 1));
            assert!(closed == old || (closing == 0 && closed.closed));
        },
    );
}
