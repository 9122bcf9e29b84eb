//! The sector reader, the block repairer and the whole-block reader of the library against the second implementation. erasures_test.rs has what marks do to them.
use crate::block::{block, block_of_frames, frame, BLOCK, MAIN};
use crate::blocks_test::accepted;
use crate::damage::{damage, overloaded_rows};
use crate::library;
use crate::random::Random;
use crate::reading::{repair_block, Answer, ReadBlock, Reader, Tallies};
use crate::report::Report;
use crate::tables::{Tables, SYNC_END};
use crate::writing::{permitted_stream, LAID, SECTOR};

const STREAM: usize = 77_380;

/// What a call of one of the block functions answered and left.
#[derive(PartialEq, Eq, Clone)]
pub struct Left {
    pub number: u32,
    pub block: Vec<u8>,
    pub erasures: Vec<u8>,
    pub main: Vec<u8>,
    pub report: Vec<u32>,
}

impl Left {
    pub fn told(&self) -> String {
        format!("{} {:?}", self.number, self.report)
    }

    /// These main data and this first number were handed out.
    pub fn is_handed_out(&self, main: &[u8], first: u32) -> bool {
        self.number == 0 && self.main == main && self.report[0] == first
    }
}

/// Buffers full of random bytes, as a call finds them.
pub fn buffers(random: &mut Random, sizes: [usize; 4]) -> Left {
    Left {
        number: 0,
        block: random.bytes(sizes[0]),
        erasures: random.bytes(sizes[1]),
        main: random.bytes(sizes[2]),
        report: (0..sizes[3]).map(|_| random.next() as u32).collect(),
    }
}

fn called(stream: &[u8], was: &Left) -> Left {
    let mut left = was.clone();
    left.number = library::read_block(stream, &mut left.block, &mut left.erasures, &mut left.main, &mut left.report);
    left
}

pub fn called_repairer(was: &Left) -> Left {
    let mut left = was.clone();
    left.number = library::repair_block(&mut left.block, &left.erasures, &mut left.main, &mut left.report);
    left
}

/// The numbers of an answer in the order of the report: with or without the two tallies of the sectors.
fn numbers(first: u32, t: &Tallies, frame: usize, with_sectors: bool) -> Vec<u32> {
    let mut all = vec![first, t.rows[0], t.rows[1], t.columns[0], t.columns[1]];
    if with_sectors {
        all.extend([t.unknown, t.spoiled]);
    }
    all.push(frame as u32);
    all
}

/// What has to be left, by what the second implementation read.
fn due(read: &ReadBlock, was: &Left, with_sectors: bool) -> Left {
    let was = was.clone();
    let (block, erasures) = (read.bytes.clone(), read.erasures.clone());
    match &read.answer {
        Answer::HandedOut { main, first, tallies } => {
            let report = numbers(*first, tallies, 0, with_sectors);
            Left { number: 0, block, erasures, main: main.clone(), report }
        }
        Answer::Refused { number, frame } => {
            let report = numbers(0, &Tallies::default(), *frame, with_sectors);
            Left { number: *number, block, erasures, report, ..was }
        }
        Answer::LengthRefused => Left { number: 1, ..was },
        Answer::ErasureRefused => Left { number: 11, ..was },
    }
}

fn is_due(report: &mut Report, ours: &Left, theirs: &Left) {
    report.check(ours == theirs, || {
        let buffers = [ours.block == theirs.block, ours.erasures == theirs.erasures, ours.main == theirs.main];
        format!("{} for {}, buffers {buffers:?}", ours.told(), theirs.told())
    });
}

/// The whole-block reader's call and the second implementation's answer, compared. Whatever they are, they have to be the same.
pub fn compare(report: &mut Report, random: &mut Random, reader: &Reader, stream: &[u8]) -> (Left, Answer) {
    let was = buffers(random, [BLOCK, BLOCK, MAIN, 8]);
    let ours = called(stream, &was);
    let read = reader.block(stream);
    is_due(report, &ours, &due(&read, &was, true));
    (ours, read.answer)
}

/// The repairer's call on a block with marks, against the second implementation.
pub fn compare_repairer(report: &mut Report, random: &mut Random, given: &[u8], erasures: &[u8]) -> (Left, Answer) {
    let was = Left { block: given.to_vec(), erasures: erasures.to_vec(), ..buffers(random, [0, 0, MAIN, 6]) };
    let ours = called_repairer(&was);
    let mut bytes = given.to_vec();
    let answer = repair_block(&mut bytes, erasures);
    let read = ReadBlock { answer, bytes, erasures: erasures.to_vec() };
    is_due(report, &ours, &due(&read, &was, false));
    (ours, read.answer)
}

// ---- damage

fn random_stream(random: &mut Random, t: &Tables) -> (Vec<u8>, u32, Vec<u8>) {
    let main = random.bytes(MAIN);
    let (first, info) = accepted(random);
    let stream = permitted_stream(t, &block(&main, first, info), random).unwrap();
    (main, first, stream)
}

/// Demand 3, by trial: at most 8 heavy rows, and the main data come back. By marks no more rows are overloaded than heavy.
pub fn mended(report: &mut Report, random: &mut Random, t: &Tables, reader: &Reader, count: usize) {
    report.begin("readers: damage with at most 8 heavy rows");
    for i in 0..count {
        let (main, first, right) = random_stream(random, t);
        let heavy = if i % 2 == 0 { 8 } else { random.below(9) };
        let stream = damage(random, &right, heavy);
        let (ours, _) = compare(report, random, reader, &stream);
        report.check(ours.is_handed_out(&main, first), || ours.told());
        let overloaded = overloaded_rows(reader, &right, &stream);
        report.check(overloaded <= heavy, || format!("{overloaded} overloaded rows, {heavy} heavy ones"));
    }
    report.end();
}

pub fn nine_heavy(report: &mut Report, random: &mut Random, t: &Tables, reader: &Reader, count: usize) {
    report.begin("readers: damage with 9 heavy rows");
    let mut refused = 0;
    for _ in 0..count {
        let (_, _, right) = random_stream(random, t);
        let stream = damage(random, &right, 9);
        let (ours, _) = compare(report, random, reader, &stream);
        refused += usize::from(ours.number != 0);
    }
    report.check(refused > 0 && refused < count, || format!("{refused} of {count} refused"));
    report.end();
}

pub fn undamaged(report: &mut Report, random: &mut Random, t: &Tables, reader: &Reader, count: usize) {
    report.begin("readers: undamaged streams");
    for _ in 0..count {
        let (main, first, stream) = random_stream(random, t);
        let (ours, _) = compare(report, random, reader, &stream);
        let is_clean = ours.report[1..] == [0; 7] && ours.erasures.iter().all(|&mark| mark == 0);
        report.check(ours.is_handed_out(&main, first) && is_clean, || ours.told());
    }
    report.end();
}

// ---- refusals

/// A changed frame k of a block, and the refusal that it must get.
fn spoiled_frame(random: &mut Random, main: &[u8], info: u8, number: u32, kind: usize) -> (Vec<u8>, u32) {
    let mut f = frame(main, info, number);
    match kind {
        // the IED
        0 => {
            f[4 + random.below(2)] ^= 1 + random.below(255) as u8;
            (f, 4)
        }
        // the IED and all the rest: the lowest number counts
        1 => {
            f[5] ^= 0x10;
            f[0] ^= 0xD2;
            f[2063] ^= 1;
            (f, 4)
        }
        // another number
        2 => (frame(main, info, (number ^ 1 << random.below(24)) & 0xFF_FFFF), 5),
        // another Information byte
        3 => (frame(main, info ^ 1 << random.below(8), number), 5),
        // the Information byte and the EDC
        4 => {
            let mut g = frame(main, info ^ 0x80, number);
            g[2060] ^= 0x80;
            (g, 5)
        }
        // the EDC
        5 => {
            f[2060 + random.below(4)] ^= 1 + random.below(255) as u8;
            (f, 6)
        }
        // the main data or the six bytes before them
        _ => {
            f[6 + random.below(2054)] ^= 1 + random.below(255) as u8;
            (f, 6)
        }
    }
}

/// A block whose first bad frame is k, bad as `kind` says, and its refusal. A second bad frame may come after.
pub fn bad_block(random: &mut Random, k: usize, kind: usize) -> (Vec<u8>, u32) {
    let main = random.bytes(MAIN);
    let (first, info) = accepted(random);
    let part = |k: usize| &main[2048 * k..2048 * k + 2048];
    let mut frames: Vec<Vec<u8>> = (0..16).map(|k| frame(part(k), info, first + k as u32)).collect();
    let (changed, number) = spoiled_frame(random, part(k), info, first + k as u32, kind);
    frames[k] = changed;
    if k < 15 && random.coin() {
        let later = k + 1 + random.below(15 - k);
        frames[later][4] ^= 1;
    }
    (block_of_frames(&frames), number)
}

/// Refusals 4, 5 and 6 at every frame from 1 on: of the repairer on a block of code words, with none to ten marks a row, and of the whole-block reader on a damaged
/// stream of it.
pub fn frame_refusals(report: &mut Report, random: &mut Random, t: &Tables, reader: &Reader) {
    report.begin("readers: refusals 4, 5 and 6");
    for (k, kind) in (1..16).flat_map(|k| (0..7).map(move |kind| (k, kind))) {
        let (made, number) = bad_block(random, k, kind);
        let refused = Answer::Refused { number, frame: k };
        let is_told = |ours: &Left| {
            let (frame, before) = ours.report.split_last().unwrap();
            ours.number == number && *frame == k as u32 && before.iter().all(|&n| n == 0)
        };
        let erasures = few_erasures(random, [0, 10][k % 2]);
        let (ours, theirs) = compare_repairer(report, random, &made, &erasures);
        let is_same = ours.block == made;
        report.check(theirs == refused && is_told(&ours) && is_same, || format!("frame {k} kind {kind}: {}", ours.told()));
        let right = permitted_stream(t, &made, random).unwrap();
        let stream = damage(random, &right, 8);
        let (ours, theirs) = compare(report, random, reader, &stream);
        let is_same = data_columns(&ours.block) == data_columns(&made);
        report.check(theirs == refused && is_told(&ours) && is_same, || {
            format!("frame {k} kind {kind}, damaged: {}", ours.told())
        });
    }
    report.end();
}

/// Refusal 5 at frame 0: a first number that is no multiple of 16, and a prohibited Information byte, the same in all frames.
pub fn refusals_at_zero(report: &mut Report, random: &mut Random, t: &Tables, reader: &Reader) {
    report.begin("readers: refusal 5 at frame 0");
    for bit in [0x01, 0x02, 0x04, 0x08, 0x10, 0x20, 0x40, 0x80] {
        let main = random.bytes(MAIN);
        let (first, info) = accepted(random);
        let is_allowed = bit & 0x2D != 0;
        let (first, info) = if is_allowed { (first + 1 + random.below(15) as u32, info) } else { (first, info | bit) };
        let made = block(&main, first, info);
        let (ours, theirs) = compare_repairer(report, random, &made, &[0; BLOCK]);
        let refused = Answer::Refused { number: 5, frame: 0 };
        report.check(theirs == refused && ours.number == 5 && ours.report == [0; 6] && ours.block == made, || ours.told());
        let right = permitted_stream(t, &made, random).unwrap();
        let (ours, theirs) = compare(report, random, reader, &right);
        report.check(theirs == refused && ours.number == 5 && ours.report == [0; 8], || ours.told());
    }
    report.end();
}

/// Columns 0 to 171, which both repairs reach.
fn data_columns(block: &[u8]) -> Vec<u8> {
    block.chunks(182).flat_map(|r| r[..172].to_vec()).collect()
}

/// At most so many marks in each row.
pub fn few_erasures(random: &mut Random, most: usize) -> Vec<u8> {
    let mut erasures = vec![0; BLOCK];
    for row in erasures.chunks_mut(182) {
        let count = random.below(most + 1);
        random.places(182, count).into_iter().for_each(|at| row[at] = 1);
    }
    erasures
}

/// Marks for a block of which some bytes are wrong: none, all, at most ten or thirteen a row, each by chance, some of the wrong bytes, or all of these.
fn any_erasures(random: &mut Random, kind: usize, is_wrong: impl Fn(usize) -> bool) -> Vec<u8> {
    match kind {
        0 => vec![0; BLOCK],
        1 => vec![1; BLOCK],
        2 => few_erasures(random, 10),
        3 => few_erasures(random, 13),
        4 => (0..BLOCK).map(|_| random.below(2) as u8).collect(),
        5 => (0..BLOCK).map(|at| u8::from(is_wrong(at) && random.below(4) > 0)).collect(),
        _ => (0..BLOCK).map(|at| u8::from(is_wrong(at))).collect(),
    }
}

/// Blocks damaged as bytes, far and near, and blocks of random bytes, with marks of each kind.
pub fn repairer(report: &mut Report, random: &mut Random, count: usize) {
    report.begin("readers: the repairer on damaged blocks");
    for i in 0..count {
        let (first, info) = accepted(random);
        let made = block(&random.bytes(MAIN), first, info);
        let mut given = made.clone();
        let wrong = random.below(2_000);
        for _ in 0..wrong {
            given[random.below(BLOCK)] ^= random.byte();
        }
        if i % 10 == 0 {
            given = random.bytes(BLOCK);
        }
        let erasures = any_erasures(random, i % 7, |at| given[at] != made[at]);
        compare_repairer(report, random, &given, &erasures);
    }
    report.end();
}

/// The stated sizes with one of them another.
pub fn other_sizes<const N: usize>(stated: [usize; N]) -> Vec<[usize; N]> {
    let mut all = Vec::new();
    for k in 0..N {
        for n in [stated[k] - 1, stated[k] + 1, 0, 2 * stated[k]] {
            let mut sizes = stated;
            sizes[k] = n;
            all.push(sizes);
        }
    }
    all
}

pub fn lengths(report: &mut Report, random: &mut Random, t: &Tables) {
    report.begin("readers: other lengths");
    let (_, _, stream) = random_stream(random, t);
    for [n, b, e, m, r] in other_sizes([STREAM, BLOCK, BLOCK, MAIN, 8]) {
        let given: Vec<u8> = stream.iter().cycle().take(n).copied().collect();
        let was = buffers(random, [b, e, m, r]);
        let ours = called(&given, &was);
        report.check(ours == Left { number: 1, ..was }, || format!("read_block {n} {b} {e} {m} {r}: {}", ours.told()));
    }
    for sizes in other_sizes([BLOCK, BLOCK, MAIN, 6]) {
        let was = buffers(random, sizes);
        let ours = called_repairer(&was);
        report.check(ours == Left { number: 1, ..was }, || format!("repair_block {sizes:?}: {}", ours.told()));
    }
    for [n, b, e, r] in other_sizes([LAID + 2, SECTOR, SECTOR, 2]) {
        let was = buffers(random, [b, e, 0, r]);
        let mut ours = was.clone();
        ours.number = library::read_sector(&stream[..n], &mut ours.block, &mut ours.erasures, &mut ours.report);
        report.check(ours == Left { number: 1, ..was }, || format!("read_sector {n} {b} {e} {r}: {}", ours.told()));
    }
    report.end();
}

// ---- the sector reader

fn spoil_half(random: &mut Random, stream: &mut [u8], half: usize) {
    let pattern = 1 + random.below(65_535) as u16;
    stream[2 * half] ^= (pattern >> 8) as u8;
    stream[2 * half + 1] ^= pattern as u8;
}

/// Spoiled words and SYNC Codes: another code's, one of the wrong class, one bit, a random half word.
fn spoil_sector(random: &mut Random, t: &Tables, stream: &mut [u8]) {
    for _ in 0..random.below(40) {
        let half = random.below(2_419);
        spoil_half(random, stream, half);
    }
    for _ in 0..random.below(12) {
        let f = random.below(26);
        let at = 186 * f;
        match random.below(4) {
            0 => spoil_half(random, stream, 93 * f),
            1 => spoil_half(random, stream, 93 * f + 1),
            2 => {
                let bit = random.below(32);
                stream[at + bit / 8] ^= 0x80 >> (bit % 8);
            }
            _ => {
                let code = t.sync[random.below(2)][random.below(8)][random.below(2)];
                stream[at..at + 2].copy_from_slice(&code.to_be_bytes());
            }
        }
    }
}

/// A sector by both: bytes, marks and tallies, of which the first is the number of the marks. The tallies.
fn compare_sector(report: &mut Report, random: &mut Random, reader: &Reader, stream: &[u8]) -> [u32; 2] {
    let mut ours = buffers(random, [SECTOR, SECTOR, 0, 2]);
    ours.number = library::read_sector(stream, &mut ours.block, &mut ours.erasures, &mut ours.report);
    let theirs = reader.sector(stream);
    let tallies = [theirs.unknown, theirs.spoiled];
    let is_same = ours.report == tallies && ours.block == theirs.bytes && ours.erasures == theirs.erasures;
    report.check(ours.number == 0 && is_same, || format!("{} for {tallies:?}", ours.told()));
    let marked = ours.erasures.iter().map(|&mark| u32::from(mark)).sum::<u32>();
    report.check(marked == ours.report[0] && ours.erasures.iter().all(|&mark| mark <= 1), || format!("{marked} marks: {}", ours.told()));
    tallies
}

/// Sectors as written, spoiled, and of random bytes.
pub fn sectors(report: &mut Report, random: &mut Random, t: &Tables, reader: &Reader, count: usize) {
    report.begin("readers: clean, damaged and random sectors");
    let (_, _, whole) = random_stream(random, t);
    let mut all = [0; 2];
    for i in 0..count {
        let s = random.below(16);
        let right = &whole[LAID * s..LAID * s + LAID + 2];
        let clean = compare_sector(report, random, reader, right);
        report.check(clean == [0; 2], || format!("clean: {clean:?}"));
        let mut stream = right.to_vec();
        spoil_sector(random, t, &mut stream);
        if i % 10 == 0 {
            stream = random.bytes(LAID + 2);
        }
        let tallies = compare_sector(report, random, reader, &stream);
        all = [all[0] + tallies[0], all[1] + tallies[1]];
    }
    report.check(all[0] > 0 && all[1] > 0, || "no damage showed".into());
    report.end();
}

// ---- the closing code

/// Every first half word, before the second half of table 4 and before some others; every second half word after a first half of SY0; and other lengths.
pub fn closings(report: &mut Report, random: &mut Random, t: &Tables, reader: &Reader) {
    report.begin("readers: closing codes");
    let mut held = 0;
    let mut compare = |bytes: &[u8]| {
        let (ours, theirs) = (library::closing_holds(bytes), reader.closing_holds(bytes));
        report.check(ours == u32::from(theirs), || format!("{bytes:02X?}: {ours}"));
        held += ours;
    };
    let code = |first: u16, second: u16| [first.to_be_bytes(), second.to_be_bytes()].concat();
    for first in 0..=u16::MAX {
        for second in [SYNC_END, 0x0000, 0x1100, 0x0010, 0x8011, random.next() as u16 & !SYNC_END] {
            compare(&code(first, second));
        }
    }
    for second in 0..=u16::MAX {
        compare(&code(t.sync[0][0][0], second));
    }
    for first in t.sync.map(|class| class[0]).concat() {
        let long = [code(first, SYNC_END), vec![0, 0x11]].concat();
        (0..=long.len()).for_each(|n| compare(&long[..n]));
        (1..=4).for_each(|n| compare(&long[n..]));
    }
    // the four codes in the first trial, one of them again in the second, the four in the third
    report.check(held == 9, || format!("{held} closing codes held"));
    report.end();
}

pub fn all(report: &mut Report, random: &mut Random, t: &Tables, reader: &Reader) {
    closings(report, random, t, reader);
    sectors(report, random, t, reader, 2_000);
    undamaged(report, random, t, reader, 20);
    mended(report, random, t, reader, 300);
    nine_heavy(report, random, t, reader, 100);
    frame_refusals(report, random, t, reader);
    refusals_at_zero(report, random, t, reader);
    repairer(report, random, 140);
    lengths(report, random, t);
}
