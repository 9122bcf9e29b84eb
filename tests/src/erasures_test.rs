//! Marks in sectors and blocks (document 02, request 2), by the library and the second implementation: the sector reader's marks in the repairer, refusal 11, and
//! streams that are read by their marks alone, or without them alone. Rows with marks are in codes_test.rs.
use crate::block::{block, scramble, BLOCK, FRAME, MAIN};
use crate::blocks_test::accepted;
use crate::damage::{blank, damage, heavy_rows, overload, replace};
use crate::library;
use crate::random::Random;
use crate::readers_test::{bad_block, buffers, called_repairer, compare, compare_repairer, few_erasures, other_sizes, Left};
use crate::reading::{sheet, Answer, Reader};
use crate::report::Report;
use crate::tables::Tables;
use crate::vectors_test::{load, text};
use crate::writing::{permitted_stream, LAID, SECTOR};

const ROWS: usize = 208;

/// A block as it was made, and a permitted stream of it.
pub struct Made {
    pub main: Vec<u8>,
    pub first: u32,
    pub block: Vec<u8>,
    pub stream: Vec<u8>,
}

impl Made {
    fn new(random: &mut Random, t: &Tables, main: Vec<u8>, first: u32, info: u8) -> Made {
        let block = block(&main, first, info);
        let stream = permitted_stream(t, &block, random).unwrap();
        Made { main, first, block, stream }
    }

    pub fn random(random: &mut Random, t: &Tables) -> Made {
        let main = random.bytes(MAIN);
        let (first, info) = accepted(random);
        Made::new(random, t, main, first, info)
    }

    /// A block whose main data are scrambled to zeros, so that ten rows of each frame, from its second row on, are zeros.
    fn of_zeros(random: &mut Random, t: &Tables) -> Made {
        let (first, info) = accepted(random);
        let mut main = Vec::new();
        for number in first..first + 16 {
            let mut frame = vec![0; FRAME];
            scramble(&mut frame, number);
            main.extend(&frame[12..2060]);
        }
        Made::new(random, t, main, first, info)
    }

    /// Its stream with the words of these bytes unknown, and no other fault.
    fn with_unknown(&self, places: &[usize]) -> Vec<u8> {
        let mut stream = self.stream.clone();
        places.iter().for_each(|&i| blank(&mut stream, i));
        stream
    }

    pub fn is_back(&self, ours: &Left) -> bool {
        ours.is_handed_out(&self.main, self.first)
    }
}

/// So many places of each of some rows of a block.
fn places_in(random: &mut Random, rows: &[usize], count: usize) -> Vec<usize> {
    rows.iter().flat_map(|row| random.places(182, count).into_iter().map(move |at| 182 * row + at)).collect()
}

/// The sixteen sectors of a stream by the library: bytes, marks, and the sums of the tallies.
pub fn read_sectors(stream: &[u8]) -> (Vec<u8>, Vec<u8>, [u32; 2]) {
    let (mut bytes, mut erasures, mut sums) = (vec![0xA5; BLOCK], vec![0xA5; BLOCK], [0; 2]);
    for (s, (out, marks)) in bytes.chunks_mut(SECTOR).zip(erasures.chunks_mut(SECTOR)).enumerate() {
        let mut tallies = [9; 2];
        assert_eq!(library::read_sector(&stream[LAID * s..][..LAID + 2], out, marks, &mut tallies), 0);
        sums = [sums[0] + tallies[0], sums[1] + tallies[1]];
    }
    (bytes, erasures, sums)
}

// ---- unknown words

/// None to ten unknown words in each row and no other fault: the row repair alone gives back the whole block. A row is changed unless zeros stood there.
fn up_to_ten_unknown(report: &mut Report, random: &mut Random, t: &Tables, reader: &Reader) {
    report.begin("marks: up to ten unknown words in each row");
    for count in 0..=10 {
        let made = Made::random(random, t);
        let places = places_in(random, &Vec::from_iter(0..ROWS), count);
        let (ours, _) = compare(report, random, reader, &made.with_unknown(&places));
        let changed = match count {
            0 => 0,
            _ => places.chunks(count).filter(|row| row.iter().any(|&i| made.block[i] != 0)).count() as u32,
        };
        let is_told = ours.report == [made.first, changed, 0, 0, 0, (ROWS * count) as u32, 0, 0];
        let is_marked = places.iter().all(|&i| ours.erasures[i] == 1);
        report.check(made.is_back(&ours) && ours.block == made.block && is_told && is_marked, || format!("{count} in each row: {}", ours.told()));
    }
    report.end();
}

/// Eleven or more unknown words in a row: it is past help, and up to eight such rows the columns put right. Nine rows without a known word are refused.
fn past_ten_unknown(report: &mut Report, random: &mut Random, t: &Tables, reader: &Reader) {
    report.begin("marks: rows with more than ten unknown words");
    for (count, rows) in [11, 12, 30, 181, 182].into_iter().flat_map(|count| [1, 5, 8].map(|rows| (count, rows))) {
        let made = Made::random(random, t);
        let places = random.places(ROWS, rows);
        let unknown = places_in(random, &places, count);
        let (ours, _) = compare(report, random, reader, &made.with_unknown(&unknown));
        let is_told = ours.report[1..3] == [0, rows as u32] && ours.report[4..7] == [0, (count * rows) as u32, 0];
        report.check(made.is_back(&ours) && is_told, || format!("{count} in {rows} rows: {}", ours.told()));
    }
    let made = Made::random(random, t);
    let places = random.places(ROWS, 9);
    let unknown = places_in(random, &places, 182);
    let (ours, _) = compare(report, random, reader, &made.with_unknown(&unknown));
    report.check((4..=6).contains(&ours.number), || format!("nine rows: {}", ours.told()));
    report.end();
}

// ---- damage

/// The theorem that marks allow, by trial: at most 8 overloaded rows, and the main data come back. Without the marks the old rule reads some of them only.
fn at_most_eight_overloaded(report: &mut Report, random: &mut Random, t: &Tables, reader: &Reader, count: usize) {
    report.begin("marks: damage with at most 8 rows of 2e + f over 10");
    let (mut heavier, mut refused) = (0, 0);
    for i in 0..count {
        let made = Made::random(random, t);
        let overloaded = if i % 2 == 0 { 8 } else { random.below(9) };
        let stream = overload(random, reader, &made.stream, overloaded);
        let (ours, _) = compare(report, random, reader, &stream);
        report.check(made.is_back(&ours), || format!("{overloaded} overloaded rows: {}", ours.told()));
        heavier += usize::from(heavy_rows(&made.stream, &stream) > 8);
        let (unmarked, _) = compare_repairer(report, random, &read_sectors(&stream).0, &[0; BLOCK]);
        refused += usize::from(unmarked.number != 0);
    }
    report.check(heavier == count && refused > 0 && refused < count, || format!("{heavier} of {count} past the old theorem, {refused} refused without marks"));
    report.end();
}

fn nine_overloaded(report: &mut Report, random: &mut Random, t: &Tables, reader: &Reader, count: usize) {
    report.begin("marks: damage with 9 rows of 2e + f over 10");
    let mut refused = 0;
    for _ in 0..count {
        let made = Made::random(random, t);
        let stream = overload(random, reader, &made.stream, 9);
        let (ours, _) = compare(report, random, reader, &stream);
        refused += usize::from(ours.number != 0);
    }
    report.check(refused > 0 && refused < count, || format!("{refused} of {count} refused"));
    report.end();
}

/// The whole-block reader is sixteen sector readers, then the repairer with their marks: each by the library.
fn by_sectors(report: &mut Report, random: &mut Random, t: &Tables, reader: &Reader, count: usize) {
    report.begin("marks: sixteen sectors, then the repairer");
    for i in 0..count {
        let made = Made::random(random, t);
        let stream = match i % 5 {
            0 => made.stream,
            1 => damage(random, &made.stream, 8),
            2 => overload(random, reader, &made.stream, 8),
            3 => overload(random, reader, &made.stream, 9),
            _ => random.bytes(made.stream.len()),
        };
        let (whole, _) = compare(report, random, reader, &stream);
        let (bytes, erasures, sums) = read_sectors(&stream);
        let was = Left { block: bytes, erasures, ..buffers(random, [0, 0, MAIN, 6]) };
        let ours = called_repairer(&was);
        let (main, sums) = if ours.number == 0 { (&whole.main, sums) } else { (&was.main, [0; 2]) };
        let is_same = ours.number == whole.number && ours.block == whole.block && ours.erasures == whole.erasures && ours.main == *main;
        let numbers = [&ours.report[..5], &sums, &ours.report[5..]].concat();
        report.check(is_same && numbers == whole.report, || format!("{} for {}", ours.told(), whole.told()));
    }
    report.end();
}

/// Nine rows of zeros in which every word is unknown but for one, in the same column of each, that stands for another byte: a stream past the theorems. With marks
/// these rows are past help, and so is the column. Without them each is a code row but for a byte, and the block is read. EDC judges, and a caller may try both.
fn read_without_marks_only(report: &mut Report, random: &mut Random, t: &Tables, reader: &Reader, count: usize) {
    report.begin("marks: streams that are read without them only");
    for _ in 0..count {
        let made = Made::of_zeros(random, t);
        let rows: Vec<usize> = random.places(160, 9).into_iter().map(|k| 13 * (k / 10) + 1 + k % 10).collect();
        let mut stream = made.with_unknown(&places_in(random, &rows, 182));
        let column = random.below(172);
        let entry = t.main.iter().skip(1).map(|words| words[0]).find(|e| e.next == 1 || e.next == 4).unwrap();
        rows.iter().for_each(|row| replace(&mut stream, 182 * row + column, entry.word));
        let (ours, answer) = compare(report, random, reader, &stream);
        let frame = rows.iter().min().unwrap() / 13;
        report.check(ours.number == 6 && answer == Answer::Refused { number: 6, frame }, || format!("with marks: {}", ours.told()));
        let (unmarked, _) = compare_repairer(report, random, &read_sectors(&stream).0, &[0; BLOCK]);
        let is_told = unmarked.report[1..] == [9, 0, 0, 0, 0];
        report.check(made.is_back(&unmarked) && unmarked.block == made.block && is_told, || format!("without: {}", unmarked.told()));
    }
    report.end();
}

// ---- the repairer

/// Marks on a block that has nothing wrong: up to ten in a row are no matter, and with all bytes marked every row is past help and the block is read all the same.
fn clean_blocks(report: &mut Report, random: &mut Random, t: &Tables) {
    report.begin("marks: on clean blocks");
    for past_help in [0, 208] {
        let made = Made::random(random, t);
        let erasures = if past_help == 0 { few_erasures(random, 10) } else { vec![1; BLOCK] };
        let (ours, _) = compare_repairer(report, random, &made.block, &erasures);
        let is_told = ours.report[1..] == [0, past_help, 0, 0, 0];
        report.check(made.is_back(&ours) && ours.block == made.block && is_told, || format!("{past_help} rows: {}", ours.told()));
    }
    report.end();
}

/// Number 11 for each mark that is neither 0 nor 1, first, last and anywhere, on blocks that would be repaired and then handed out or refused with 4, 5 or 6;
/// everything is left. Number 1 comes before it.
fn refusals(report: &mut Report, random: &mut Random, t: &Tables) {
    report.begin("marks: refusal 11");
    let mut blocks = vec![Made::random(random, t).block];
    blocks.extend([0, 2, 5].map(|kind| bad_block(random, 1, kind).0));
    // something to repair in each
    for byte in blocks.iter_mut().flat_map(|given| given.iter_mut().step_by(100)) {
        *byte ^= 1 + random.below(255) as u8;
    }
    for (mark, place) in (2..=255).flat_map(|mark| [Some(0), Some(BLOCK - 1), None].map(|place| (mark, place))) {
        let most = random.below(13);
        let mut erasures = few_erasures(random, most);
        erasures[place.unwrap_or(random.below(BLOCK))] = mark;
        let given = &blocks[random.below(blocks.len())];
        let (ours, _) = compare_repairer(report, random, given, &erasures);
        report.check(ours.number == 11 && ours.block == *given, || format!("mark {mark}: {}", ours.told()));
    }
    for (sizes, mark) in other_sizes([BLOCK, BLOCK, MAIN, 6]).into_iter().flat_map(|sizes| [0, 1, 2, 255].map(|mark| (sizes, mark))) {
        let was = Left { erasures: vec![mark; sizes[1]], ..buffers(random, sizes) };
        let ours = called_repairer(&was);
        report.check(ours == Left { number: 1, ..was }, || format!("{sizes:?}, marks of {mark}: {}", ours.told()));
    }
    report.end();
}

/// The vectors' damaged streams by the library, each as its sheet says, which was made with marks.
fn damaged_vectors(report: &mut Report, random: &mut Random, reader: &Reader) {
    report.begin("marks: the vectors' damaged streams");
    for line in text("damaged/sheets.tsv").lines() {
        let (name, due) = line.split_once('\t').unwrap();
        let (_, answer) = compare(report, random, reader, &load(&format!("damaged/{name}.stream")));
        report.check(sheet(&answer) == due, || format!("{name}: {} for {due}", sheet(&answer)));
    }
    report.end();
}

pub fn all(report: &mut Report, random: &mut Random, t: &Tables, reader: &Reader) {
    up_to_ten_unknown(report, random, t, reader);
    past_ten_unknown(report, random, t, reader);
    at_most_eight_overloaded(report, random, t, reader, 50);
    nine_overloaded(report, random, t, reader, 30);
    by_sectors(report, random, t, reader, 20);
    read_without_marks_only(report, random, t, reader, 10);
    clean_blocks(report, random, t);
    refusals(report, random, t);
    damaged_vectors(report, random, reader);
}
