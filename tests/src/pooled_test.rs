//! Two readings of one block pooled and then repaired (document 02, request 8), by the library and the second implementation: readings made row by row, at the
//! theorem's limit and past it, those of damaged streams, and the vectors'. pool_test.rs has the pooling alone.
use crate::block::BLOCK;
use crate::codes_test::compare_erased;
use crate::damage::{blank, damage, flip_some, mistake, overload};
use crate::erasures_test::{read_sectors, Made};
use crate::light_test::other_than_0;
use crate::pool::{rows_not_as_asked, Lent};
use crate::pool_test::{compare, is_due};
use crate::random::Random;
use crate::readers_test::{compare_repairer, Left};
use crate::reading::{sheet, Reader};
use crate::report::Report;
use crate::rs::{Code, Fate};
use crate::tables::Tables;
use crate::vectors_test::{hash, load, text};
use crate::writing::permitted_stream;

const ROWS: usize = 208;
const ROW: usize = 182;
/// The ways in which a row is not as the theorem asks.
const KINDS: usize = 6;

// ---- rows

/// A made block, and what two drives read of it.
struct Twice {
    made: Made,
    readings: [Lent; 2],
}

/// So many wrong bytes, split between two readings in the k-th way.
fn split(wrong: usize, k: usize) -> [usize; 2] {
    let first = k % (wrong + 1);
    [first, wrong - first]
}

impl Twice {
    /// Nothing is wrong and nothing marked.
    fn clean(random: &mut Random, t: &Tables) -> Twice {
        let made = Made::random(random, t);
        let readings = [Lent::unmarked(&made.block), Lent::unmarked(&made.block)];
        Twice { made, readings }
    }

    fn put(&mut self, drive: usize, i: usize, byte: u8, mark: u8) {
        self.readings[drive].bytes[i] = byte;
        self.readings[drive].erasures[i] = mark;
    }

    fn mistake(&mut self, random: &mut Random, drive: usize, i: usize) {
        let byte = self.made.block[i] ^ other_than_0(random);
        self.put(drive, i, byte, 0);
    }

    /// A mark over the right byte, over 0 as the sector reader has it, or over any.
    fn mark(&mut self, random: &mut Random, drive: usize, i: usize) {
        let byte = [self.made.block[i], 0, random.byte()][random.below(3)];
        self.put(drive, i, byte, 1);
    }

    fn clear(&mut self, row: usize) {
        for i in ROW * row..ROW * row + ROW {
            [0, 1].into_iter().for_each(|drive| self.put(drive, i, self.made.block[i], 0));
        }
    }

    /// A row anew: so many unmarked wrong bytes in each reading and any number of marks in the one, in the other or in both, all at places of their own, so that
    /// every place is right and unmarked in at least one.
    fn spread(&mut self, random: &mut Random, row: usize, [wrong, wrong_second]: [usize; 2]) {
        self.clear(row);
        let most = ROW - wrong - wrong_second;
        let marked = [0, random.below(most + 1), most][random.below(3)];
        let places = random.places(ROW, wrong + wrong_second + marked);
        let (in_first, rest) = places.split_at(wrong);
        let (in_second, marked) = rest.split_at(wrong_second);
        in_first.iter().for_each(|at| self.mistake(random, 0, ROW * row + at));
        in_second.iter().for_each(|at| self.mistake(random, 1, ROW * row + at));
        let kind = random.below(3);
        for at in marked {
            let drive = [0, 1, random.below(2)][kind];
            self.mark(random, drive, ROW * row + at);
        }
    }

    /// Every row as the theorem asks: ten unmarked wrong bytes in both readings together, split in every way, or fewer.
    fn spread_rows(&mut self, random: &mut Random, is_limit: bool) {
        for row in 0..ROWS {
            let wrong = if is_limit { 10 } else { random.below(11) };
            self.spread(random, row, split(wrong, row));
        }
    }

    /// A place of a row that is right and unmarked in neither reading: the same wrong byte, two wrong bytes, a wrong byte and a mark, or two marks.
    fn spoil(&mut self, random: &mut Random, row: usize) {
        let i = ROW * row + random.below(ROW);
        let (drive, byte) = (random.below(2), self.made.block[i] ^ other_than_0(random));
        self.put(drive, i, byte, 0);
        match random.below(4) {
            0 => self.put(1 - drive, i, byte, 0),
            1 => self.mistake(random, 1 - drive, i),
            2 => self.mark(random, 1 - drive, i),
            _ => [0, 1].into_iter().for_each(|drive| self.mark(random, drive, i)),
        }
    }

    /// A row that is not as the theorem asks: by one wrong byte too many, by a place, as another code row in both readings, lost in both under marks or without,
    /// or in any of these ways.
    fn lose(&mut self, random: &mut Random, row: usize, kind: usize) {
        let other = Code::row().random_code_word(random);
        let kind = if kind == KINDS - 1 { random.below(KINDS - 1) } else { kind };
        match kind {
            0 => self.spread(random, row, split(11, row)),
            1 => self.spoil(random, row),
            2 => (0..2 * ROW).for_each(|k| self.put(k / ROW, ROW * row + k % ROW, other[k % ROW], 0)),
            3 => (0..2 * ROW).for_each(|k| self.mark(random, k / ROW, ROW * row + k % ROW)),
            _ => (0..2 * ROW).for_each(|k| self.mistake(random, k / ROW, ROW * row + k % ROW)),
        }
    }

    /// So many rows are lost in one of these ways, the others as the theorem asks.
    fn with_lost(random: &mut Random, t: &Tables, count: usize, kind: usize) -> Twice {
        let mut twice = Twice::clean(random, t);
        let is_limit = random.coin();
        twice.spread_rows(random, is_limit);
        random.places(ROWS, count).into_iter().for_each(|row| twice.lose(random, row, kind));
        twice
    }

    fn not_as_asked(&self) -> usize {
        rows_not_as_asked(&self.made.block, &self.readings[0], &self.readings[1])
    }

    fn pooled(&self, report: &mut Report) -> Lent {
        compare(report, &self.readings[0], &self.readings[1])
    }

    /// How many rows come back whole from the row repair.
    fn rows_back(&self, rows: &[(Fate, Vec<u8>)]) -> usize {
        self.made.block.chunks(ROW).zip(rows).filter(|(right, (fate, row))| row == right && *fate != Fate::PastHelp).count()
    }
}

/// Each row by both repairs.
fn repaired_rows(report: &mut Report, pooled: &Lent) -> Vec<(Fate, Vec<u8>)> {
    let code = Code::row();
    let rows = pooled.bytes.chunks(ROW).zip(pooled.erasures.chunks(ROW));
    rows.map(|(row, erasures)| compare_erased(report, &code, row, erasures)).collect()
}

fn repaired(report: &mut Report, random: &mut Random, pooled: &Lent) -> Left {
    compare_repairer(report, random, &pooled.bytes, &pooled.erasures).0
}

/// The repairer finds a frame that fails.
fn is_refused(report: &mut Report, random: &mut Random, reading: &Lent) {
    let ours = repaired(report, random, reading);
    report.check((4..=6).contains(&ours.number), || format!("not refused: {}", ours.told()));
}

/// Every row comes back whole from the row repair, and the repairer has nothing left for the columns.
fn rows_as_asked(report: &mut Report, random: &mut Random, t: &Tables, is_limit: bool, count: usize) {
    let most = if is_limit { "ten" } else { "up to ten" };
    report.begin(&format!("pool: rows with {most} unmarked wrong bytes in two readings"));
    for _ in 0..count {
        let mut twice = Twice::clean(random, t);
        twice.spread_rows(random, is_limit);
        let pooled = twice.pooled(report);
        let (back, others) = (twice.rows_back(&repaired_rows(report, &pooled)), twice.not_as_asked());
        report.check(back == ROWS && others == 0, || format!("{back} rows back, {others} not as asked"));
        let ours = repaired(report, random, &pooled);
        let is_whole = ours.block == twice.made.block && ours.report[2..] == [0; 4];
        report.check(twice.made.is_back(&ours) && is_whole, || ours.told());
    }
    report.end();
}

/// One more: they are eleven marks, and the row is past help.
fn rows_with_eleven(report: &mut Report, random: &mut Random, t: &Tables, count: usize) {
    report.begin("pool: rows with eleven unmarked wrong bytes in two readings");
    for _ in 0..count {
        let mut twice = Twice::clean(random, t);
        (0..ROWS).for_each(|row| twice.spread(random, row, split(11, row)));
        let pooled = twice.pooled(report);
        let rows = repaired_rows(report, &pooled);
        let past_help = rows.iter().zip(pooled.bytes.chunks(ROW)).filter(|((fate, row), was)| *fate == Fate::PastHelp && row == was).count();
        let others = twice.not_as_asked();
        report.check(past_help == ROWS && others == ROWS, || format!("{past_help} rows past help, {others} not as asked"));
        is_refused(report, random, &pooled);
    }
    report.end();
}

/// Some of these rows come back, and some do not.
fn rows_with_a_place(report: &mut Report, random: &mut Random, t: &Tables, count: usize) {
    report.begin("pool: rows with a place that is right in neither reading");
    let mut all_back = 0;
    for _ in 0..count {
        let mut twice = Twice::clean(random, t);
        twice.spread_rows(random, false);
        (0..ROWS).for_each(|row| twice.spoil(random, row));
        let pooled = twice.pooled(report);
        all_back += twice.rows_back(&repaired_rows(report, &pooled));
        let others = twice.not_as_asked();
        report.check(others == ROWS, || format!("{others} not as asked"));
        repaired(report, random, &pooled);
    }
    report.check(all_back > 0 && all_back < ROWS * count, || format!("{all_back} rows back"));
    report.end();
}

fn at_most_eight_others(report: &mut Report, random: &mut Random, t: &Tables, count: usize) {
    report.begin("pool: readings with at most 8 rows not as asked");
    for i in 0..count {
        let lost = if i % 2 == 0 { 8 } else { random.below(9) };
        let twice = Twice::with_lost(random, t, lost, i / 2 % KINDS);
        let pooled = twice.pooled(report);
        let ours = repaired(report, random, &pooled);
        let others = twice.not_as_asked();
        report.check(twice.made.is_back(&ours) && others == lost, || format!("{lost} rows, {others} not as asked: {}", ours.told()));
    }
    report.end();
}

fn nine_others(report: &mut Report, random: &mut Random, t: &Tables, count: usize) {
    report.begin("pool: readings with 9 rows not as asked");
    let mut refused = 0;
    for i in 0..count {
        let twice = Twice::with_lost(random, t, 9, i % KINDS);
        let pooled = twice.pooled(report);
        let ours = repaired(report, random, &pooled);
        refused += usize::from(ours.number != 0);
        let others = twice.not_as_asked();
        report.check(others == 9, || format!("{others} not as asked"));
    }
    report.check(refused > 0 && refused < count, || format!("{refused} of {count} refused"));
    report.end();
}

// ---- streams

/// The sectors of a stream by both.
fn read(report: &mut Report, reader: &Reader, stream: &[u8]) -> Lent {
    let (bytes, erasures, sums) = read_sectors(stream);
    let theirs = reader.sectors(stream);
    let is_same = bytes == theirs.bytes && erasures == theirs.erasures && sums == [theirs.unknown, theirs.spoiled];
    report.check(is_same, || format!("{sums:?} for {:?}", [theirs.unknown, theirs.spoiled]));
    Lent { bytes, erasures }
}

/// One row of two streams: up to ten words flipped or taken for others, and eleven or more blanked in each stream, all at places of their own.
fn tear(random: &mut Random, t: &Tables, made: &Made, streams: &mut [Vec<u8>; 2], row: usize) {
    let hurt = random.below(11);
    let blanked = 22 + random.below(ROW - 21 - hurt);
    for (k, at) in random.places(ROW, hurt + blanked).into_iter().enumerate() {
        let i = ROW * row + at;
        let stream = &mut streams[k % 2];
        if k >= hurt {
            blank(stream, i);
        } else if random.coin() {
            mistake(random, t, stream, i, made.block[i]);
        } else {
            flip_some(random, stream, i);
        }
    }
}

/// Two damaged streams of a block, with so many rows lost in both.
fn torn(random: &mut Random, t: &Tables, made: &Made, lost: usize) -> [Vec<u8>; 2] {
    let mut streams = [made.stream.clone(), made.stream.clone()];
    (0..ROWS).for_each(|row| tear(random, t, made, &mut streams, row));
    for row in random.places(ROWS, lost) {
        streams.iter_mut().for_each(|stream| (ROW * row..ROW * row + ROW).for_each(|i| blank(stream, i)));
    }
    streams
}

/// Neither reads, with its marks or without, and pooled they do.
fn neither_reads(report: &mut Report, random: &mut Random, t: &Tables, reader: &Reader, count: usize) {
    report.begin("pool: two streams of which neither reads alone");
    for k in 0..count {
        let (made, lost) = (Made::random(random, t), k % 9);
        let readings = torn(random, t, &made, lost).map(|stream| read(report, reader, &stream));
        for reading in &readings {
            is_refused(report, random, reading);
            is_refused(report, random, &Lent::unmarked(&reading.bytes));
        }
        let twice = Twice { made, readings };
        let pooled = twice.pooled(report);
        let ours = repaired(report, random, &pooled);
        let others = twice.not_as_asked();
        report.check(twice.made.is_back(&ours) && others == lost, || format!("{lost} rows, {others} not as asked: {}", ours.told()));
    }
    report.end();
}

/// Not damaged, with few and with many rows past what the theorems allow, or random bytes.
fn any_damage(random: &mut Random, reader: &Reader, stream: &[u8]) -> Vec<u8> {
    let (few, many) = (random.below(9), 9 + random.below(30));
    match random.below(6) {
        0 => stream.to_vec(),
        1 => damage(random, stream, few),
        2 => damage(random, stream, many),
        3 => overload(random, reader, stream, few),
        4 => overload(random, reader, stream, many),
        _ => random.bytes(stream.len()),
    }
}

/// Pairs of one stream, of two permitted streams of one block, and of two blocks.
fn pairs_of_streams(report: &mut Report, random: &mut Random, t: &Tables, reader: &Reader, count: usize) {
    report.begin("pool: pairs of damaged streams");
    let mut refused = 0;
    for i in 0..count {
        let made = Made::random(random, t);
        let other = match i % 3 {
            0 => made.stream.clone(),
            1 => permitted_stream(t, &made.block, random).unwrap(),
            _ => Made::random(random, t).stream,
        };
        let [first, second] = [&made.stream, &other].map(|stream| read(report, reader, &any_damage(random, reader, stream)));
        let pooled = compare(report, &first, &second);
        refused += usize::from(repaired(report, random, &pooled).number != 0);
    }
    report.check(refused > 0 && refused < count, || format!("{refused} of {count} refused"));
    report.end();
}

/// Unmarked readings of a block with which a clean one is refused: random bytes, another block, and eleven wrong bytes in the same columns of nine rows.
fn bad_readings(random: &mut Random, t: &Tables, made: &Made) -> [Lent; 3] {
    let mut bytes = made.block.clone();
    let columns = random.places(172, 11);
    for row in random.places(ROWS, 9) {
        columns.iter().for_each(|at| bytes[ROW * row + at] ^= other_than_0(random));
    }
    [random.bytes(BLOCK), Made::random(random, t).block, bytes].map(|bytes| Lent::unmarked(&bytes))
}

/// A clean reading reads alone, and pooled with one that is marked all over it stays, whatever is under the marks. With a bad one it is refused.
fn clean_with_bad(report: &mut Report, random: &mut Random, t: &Tables, count: usize) {
    report.begin("pool: a clean reading with a bad one");
    for _ in 0..count {
        let made = Made::random(random, t);
        let clean = Lent::unmarked(&made.block);
        let ours = repaired(report, random, &clean);
        report.check(made.is_back(&ours), || format!("alone: {}", ours.told()));
        let marked = Lent { bytes: random.bytes(BLOCK), erasures: vec![1; BLOCK] };
        is_due(report, &clean, &marked, &Ok(clean.clone()));
        is_due(report, &marked, &clean, &Ok(clean.clone()));
        for bad in bad_readings(random, t, &made) {
            let pooled = compare(report, &clean, &bad);
            is_refused(report, random, &pooled);
        }
    }
    report.end();
}

// ---- the vectors

/// Two streams each: hashes of the pooled bytes and marks, how many are marked, and what the repairer answers: the sheet's line up to the sectors' tallies.
fn vectors(report: &mut Report, random: &mut Random, reader: &Reader) {
    report.begin("pool: the vectors");
    let list = text("pool.tsv");
    for line in list.lines().skip(1) {
        let words: Vec<&str> = line.split('\t').collect();
        let [first, second, due @ ..] = &words[..] else { panic!("{line}") };
        let [first, second] = [first, second].map(|name| read(report, reader, &load(name.trim_start_matches("../"))));
        let pooled = compare(report, &first, &second);
        let hashes = [&pooled.bytes, &pooled.erasures].map(|buffer| format!("{:016X}", hash(buffer)));
        let marked = pooled.erasures.iter().filter(|&&mark| mark == 1).count();
        let answer = sheet(&compare_repairer(report, random, &pooled.bytes, &pooled.erasures).1);
        let ours = [&hashes[0], &hashes[1], &marked.to_string(), answer.split(" unknown").next().unwrap()];
        report.check(ours == *due, || format!("{line}: {ours:?}"));
    }
    report.check(list.lines().count() == 10, || "9 pairs".into());
    report.end();
}

pub fn all(report: &mut Report, random: &mut Random, t: &Tables, reader: &Reader) {
    vectors(report, random, reader);
    rows_as_asked(report, random, t, true, 20);
    rows_as_asked(report, random, t, false, 10);
    rows_with_eleven(report, random, t, 10);
    rows_with_a_place(report, random, t, 10);
    at_most_eight_others(report, random, t, 36);
    nine_others(report, random, t, 24);
    neither_reads(report, random, t, reader, 9);
    pairs_of_streams(report, random, t, reader, 45);
    clean_with_bad(report, random, t, 5);
}
