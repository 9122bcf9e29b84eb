//! Blocks that follow on: runs of the library against the second implementation, written, read block by block, and damaged.
use crate::block::{refusal, BLOCK, MAIN};
use crate::blocks_test::previous_numbers;
use crate::damage::damage;
use crate::library;
use crate::random::Random;
use crate::readers_test::{compare, Left};
use crate::reading::{zero_runs_hold, Reader};
use crate::report::Report;
use crate::run::{block_refusal, blocks_of, part, previous_of, write_block, Input, BLOCK_LAID};
use crate::tables::Tables;
use crate::vectors_test;
use crate::writer_test::{odd_record, random_record, records_at_ends, records_by_peak};
use crate::writing::{permitted_stream, write_run, Record, LAID, SECTOR};

/// Blocks that follow on, from a random first number, or up to the last number there is.
pub fn random_inputs(random: &mut Random, count: usize) -> Vec<Input> {
    let latest = (1 << 20) - count;
    let start = if random.below(8) == 0 { latest } else { random.below(latest + 1) };
    let input = |k| Input {
        main: random.bytes(MAIN),
        first: 16 * (start + k) as u32,
        info: random.byte() & 0x2D,
    };
    (0..count).map(input).collect()
}

// ---- written

/// A run as the second implementation writes it.
struct Run {
    inputs: Vec<Input>,
    blocks: Vec<u8>,
    stream: Vec<u8>,
    records: Vec<Record>,
}

impl Run {
    fn random(random: &mut Random, t: &Tables, count: usize) -> Run {
        let inputs = random_inputs(random, count);
        let blocks = blocks_of(&inputs);
        let (stream, records) = write_run(t, &blocks);
        Run { inputs, blocks, stream, records }
    }

    /// Block k by the library's block maker and sixteen trials and takes of its writer, each compared.
    fn by_sectors(&self, report: &mut Report, record: &mut Record, k: usize) {
        let input = &self.inputs[k];
        let mut made = vec![0xA5; BLOCK];
        let answer = library::encode_block(&input.main, previous_of(&self.inputs, k), input.first, input.info, &mut made);
        report.check(answer == 0 && made == self.blocks[BLOCK * k..][..BLOCK], || format!("block {k} made: {answer}"));
        for (i, bytes) in made.chunks(SECTOR).enumerate() {
            let mut out = vec![0xA5; LAID];
            let (s, answers) = (16 * k + i, [library::trial(record, bytes, &out), library::take(record, bytes, &mut out)]);
            let is_due = *record == self.records[s] && out == self.stream[LAID * s..][..LAID];
            report.check(answers == [0; 2] && is_due, || format!("sector {s}: {answers:?}, {record:?} for {:?}", self.records[s]));
        }
    }

    /// Block k by the library's call for a whole block, which drops the mark of a trial.
    fn by_block(&self, report: &mut Report, record: &mut Record, k: usize) {
        let input = &self.inputs[k];
        let mut out = vec![0xA5; BLOCK_LAID];
        record.mark = Some(record.dsv);
        let answer = library::write_block(record, previous_of(&self.inputs, k), &input.main, input.first, input.info, &mut out);
        let due = self.records[16 * k + 15];
        let is_due = *record == due && out == self.stream[BLOCK_LAID * k..][..BLOCK_LAID];
        report.check(answer == 0 && is_due, || format!("block {k}: {answer}, {record:?} for {due:?}"));
    }

    /// The run by the library, each block at once where `is_whole` says so, and closed, which drops a mark too.
    fn by_library(&self, report: &mut Report, mut is_whole: impl FnMut() -> bool) {
        let mut record = Record::start();
        for k in 0..self.inputs.len() {
            if is_whole() {
                self.by_block(report, &mut record, k);
            } else {
                self.by_sectors(report, &mut record, k);
            }
        }
        let mut out = [0xA5; 4];
        record.mark = Some(record.dsv);
        let answer = library::close(&mut record, &mut out);
        let is_due = Some(&record) == self.records.last() && self.stream.ends_with(&out);
        report.check(answer == 0 && is_due, || format!("closing: {answer}, {record:?}"));
    }
}

/// Runs of these lengths sector by sector, block by block and both in turn, each call compared; then each block read back by the library.
pub fn written(report: &mut Report, random: &mut Random, t: &Tables, lengths: impl Iterator<Item = usize>) {
    report.begin("runs: written");
    for count in lengths {
        let run = Run::random(random, t, count);
        run.by_library(report, || false);
        run.by_library(report, || true);
        run.by_library(report, || random.coin());
        for (k, input) in run.inputs.iter().enumerate() {
            let (mut block, mut erasures, mut main, mut numbers) = (vec![0; BLOCK], vec![9; BLOCK], vec![0; MAIN], [9; 8]);
            let answer = library::read_block(part(&run.stream, k), &mut block, &mut erasures, &mut main, &mut numbers);
            let is_clean = numbers == [input.first, 0, 0, 0, 0, 0, 0, 0] && erasures.iter().all(|&mark| mark == 0);
            report.check(answer == 0 && main == input.main && is_clean, || format!("block {k} of {count}: {answer} {numbers:?}"));
        }
    }
    report.end();
}

// ---- refused

/// An input and a block before that may be refused for each of the block maker's reasons, or for none.
fn odd_input(random: &mut Random) -> (Option<u32>, Input) {
    let first = [0, 16, 0x030000, 16_777_200, 8, 16_777_216, u32::MAX - 15][random.below(7)];
    let before = previous_numbers(first);
    let previous = match random.below(2) {
        0 => before[random.below(2)],
        _ => before[random.below(before.len())],
    };
    let info = [0, 0x25, 0x2D, 0x02, random.byte()][random.below(5)];
    let size = MAIN - 1 + [1, 1, 1, 0, 2][random.below(5)];
    (previous, Input { main: random.bytes(size), first, info })
}

/// The call for a whole block, by both: what is refused is left, what is not is written alike. The number due.
fn compare_block(report: &mut Report, t: &Tables, record: Record, previous: Option<u32>, input: &Input, to: usize) -> u32 {
    let due = block_refusal(&record, previous, input, to);
    let (mut ours, mut out) = (record, vec![0xA5; to]);
    let answer = library::write_block(&mut ours, previous, &input.main, input.first, input.info, &mut out);
    let (mut theirs, mut bytes) = (record, vec![0xA5; to]);
    if due == 0 {
        bytes = write_block(t, &mut theirs, input);
    }
    report.check(answer == due && ours == theirs && out == bytes, || {
        format!("{record:?}, {} after {previous:?}, information {}: {answer} for {due}", input.first, input.info)
    });
    // of a block that the maker makes, its sectors alone are answered likewise
    if refusal(input.main.len(), BLOCK, previous, input.first, input.info) == 0 {
        let (mut ours, mut out) = (record, vec![0xA5; to]);
        let answer = library::write_sectors(&mut ours, &input.block(), &mut out);
        report.check(answer == due && ours == theirs && out == bytes, || format!("sectors of a block, {record:?}: {answer} for {due}"));
    }
    due
}

/// Every number of the call for a whole block and their order, by chance; all of them come up.
pub fn refusals(report: &mut Report, random: &mut Random, t: &Tables, count: usize) {
    report.begin("runs: refusals of the call for a whole block");
    let mut seen = [0; 11];
    for _ in 0..count {
        let (previous, input) = odd_input(random);
        let record = if random.coin() { odd_record(random) } else { random_record(random) };
        let to = BLOCK_LAID - 1 + [1, 1, 1, 0, 2][random.below(5)];
        seen[compare_block(report, t, record, previous, &input, to) as usize] += 1;
    }
    let is_seen = [0, 1, 2, 3, 7, 9, 10].into_iter().all(|number: usize| seen[number] > 0);
    report.check(is_seen, || format!("how often each number: {seen:?}"));
    report.end();
}

/// A whole block from records around every number that a refusal looks at.
pub fn ends(report: &mut Report, random: &mut Random, t: &Tables) {
    report.begin("runs: a whole block at the ends of a run");
    let inputs = random_inputs(random, 2);
    for record in records_at_ends().into_iter().chain(records_by_peak()) {
        compare_block(report, t, record, Some(inputs[0].first), &inputs[1], BLOCK_LAID);
    }
    report.end();
}

// ---- read

/// A run with permitted choices taken at random over all of it.
struct Chosen {
    inputs: Vec<Input>,
    blocks: Vec<u8>,
    stream: Vec<u8>,
}

impl Chosen {
    fn random(random: &mut Random, t: &Tables, count: usize) -> Chosen {
        let inputs = random_inputs(random, count);
        let blocks = blocks_of(&inputs);
        let stream = permitted_stream(t, &blocks, random).unwrap();
        Chosen { inputs, blocks, stream }
    }
}

/// Whether a block was read to its input, with at most so many rows changed, unknown words and spoiled SYNC Codes, and nothing else to tell.
fn is_read(ours: &Left, input: &Input, most: u32) -> bool {
    let [_, changed, past_help, columns, columns_past_help, unknown, spoiled, frame] = ours.report[..] else { return false };
    let is_quiet = [past_help, columns, columns_past_help, frame] == [0; 4] && changed.max(unknown).max(spoiled) <= most;
    ours.is_handed_out(&input.main, input.first) && is_quiet
}

/// The zero runs of each block with the four bytes after it, by both, and those of the whole run, which hold just when all of these do.
fn zero_runs(report: &mut Report, stream: &[u8]) -> bool {
    let mut all = true;
    for k in 0..stream.len() / BLOCK_LAID {
        let (ours, theirs) = (library::zero_runs_hold(part(stream, k)), zero_runs_hold(part(stream, k)));
        report.check(ours == theirs, || format!("block {k}: {ours} for {theirs}"));
        all &= theirs;
    }
    let whole = zero_runs_hold(stream);
    report.check(whole == all, || format!("all of the run: {whole} for {all}"));
    whole
}

/// Runs with random choices: their zero runs, seams included, and each block read, clean.
pub fn chosen(report: &mut Report, random: &mut Random, t: &Tables, reader: &Reader, lengths: &[usize]) {
    report.begin("runs: random choices");
    for &count in lengths {
        let mut run = Chosen::random(random, t, count);
        let holds = zero_runs(report, &run.stream);
        report.check(holds, || format!("zero runs of {count} blocks"));
        for (k, input) in run.inputs.iter().enumerate() {
            let (ours, _) = compare(report, random, reader, part(&run.stream, k));
            report.check(is_read(&ours, input, 0), || format!("block {k} of {count}: {}", ours.told()));
        }
        // a bit near a seam flipped: both see what it does to the zero runs
        let bit = 8 * BLOCK_LAID * (1 + random.below(count)) - 20 + random.below(40);
        run.stream[bit / 8] ^= 0x80 >> (bit % 8);
        zero_runs(report, &run.stream);
    }
    report.end();
}

// ---- damaged

/// Block k of a run with other bytes: it is read to its input or is refused, as told, and the others are read whatever it holds. Damage reaches them at the seams
/// only: the last byte of the block before, and the first SYNC Code of the block after.
fn one_other(report: &mut Report, random: &mut Random, reader: &Reader, run: &Chosen, k: usize, bytes: &[u8], is_mended: bool) {
    let mut stream = run.stream.clone();
    stream[BLOCK_LAID * k..][..bytes.len()].copy_from_slice(bytes);
    for (j, input) in run.inputs.iter().enumerate() {
        let (ours, _) = compare(report, random, reader, part(&stream, j));
        let is_back = ours.is_handed_out(&input.main, input.first);
        let is_due = match j.abs_diff(k) {
            0 => is_back == is_mended && (is_back || (4..=6).contains(&ours.number)),
            1 => is_read(&ours, input, 1),
            _ => is_read(&ours, input, 0),
        };
        report.check(is_due, || format!("block {j} where {k} of {} is damaged: {}", run.inputs.len(), ours.told()));
    }
}

/// Each block of a run damaged alone: eight heavy rows, or nothing of it left.
pub fn one_damaged(report: &mut Report, random: &mut Random, t: &Tables, reader: &Reader, lengths: &[usize]) {
    report.begin("runs: each block damaged alone");
    for &count in lengths {
        let run = Chosen::random(random, t, count);
        for k in 0..count {
            let scratched = damage(random, part(&run.stream, k), 8);
            one_other(report, random, reader, &run, k, &scratched, true);
            let lost = random.bytes(BLOCK_LAID);
            one_other(report, random, reader, &run, k, &lost, false);
        }
    }
    report.end();
}

/// The last sector of block k as the library reads it: every byte but the last is right and unmarked, the last one too unless bit 15 or 3 of the half word after it
/// changed, and no SYNC place is lost, since the code after a block is not its own. Whether the last byte changed.
fn last_sector(report: &mut Report, run: &Chosen, stream: &[u8], k: usize, pattern: u32) -> bool {
    let (mut bytes, mut erasures, mut tallies) = (vec![0xA5; SECTOR], vec![0xA5; SECTOR], [9; 2]);
    let answer = library::read_sector(&part(stream, k)[15 * LAID..][..LAID + 2], &mut bytes, &mut erasures, &mut tallies);
    let (last, before) = bytes.split_last().unwrap();
    let (mark, marks_before) = erasures.split_last().unwrap();
    let (right, all) = run.blocks[BLOCK * k + 15 * SECTOR..][..SECTOR].split_last().unwrap();
    let is_touched = pattern >> 16 & 0x8008 != 0;
    let is_marked_so = marks_before.iter().all(|&mark| mark == 0) && tallies == [u32::from(*mark), 0];
    let is_due = before == all && (is_touched || (last == right && *mark == 0)) && is_marked_so;
    report.check(answer == 0 && is_due, || format!("block {k}, code after it by {pattern:08X}: {answer} {tallies:?}"));
    last != right
}

/// The code after block k with other bits: of the block before it touches the last byte and nothing else, of the block after it the first SYNC place alone.
fn seam(report: &mut Report, random: &mut Random, reader: &Reader, run: &Chosen, k: usize, pattern: u32) -> bool {
    let mut stream = run.stream.clone();
    let code = stream[BLOCK_LAID * (k + 1)..][..4].iter_mut();
    code.zip(pattern.to_be_bytes()).for_each(|(byte, flipped)| *byte ^= flipped);
    let is_changed = last_sector(report, run, &stream, k, pattern);
    for j in k..run.inputs.len().min(k + 2) {
        let (ours, _) = compare(report, random, reader, part(&stream, j));
        let [changed, unknown, spoiled] = [1, 5, 6].map(|i| ours.report[i]);
        let is_due = if j == k {
            [changed, spoiled] == [u32::from(is_changed), 0]
        } else {
            [changed, unknown] == [0, 0]
        };
        report.check(is_read(&ours, &run.inputs[j], 1) && is_due, || format!("block {j}, code after {k} by {pattern:08X}: {}", ours.told()));
    }
    is_changed
}

/// Codes after blocks, of a block that follows and closing ones, with each bit flipped alone and with others, until a few have changed the byte before them.
pub fn seams(report: &mut Report, random: &mut Random, t: &Tables, reader: &Reader) {
    report.begin("runs: the code after a block spoiled");
    let mut changed = [0; 2];
    for _ in 0..50 {
        let run = Chosen::random(random, t, 2);
        for (k, count) in changed.iter_mut().enumerate() {
            let others = [u32::MAX, 0xFFFF_0000, random.next() as u32, random.next() as u32];
            let patterns = (0..32).map(|bit| 1 << bit).chain(others);
            *count += patterns.filter(|&pattern| seam(report, random, reader, &run, k, pattern)).count();
        }
        if changed.iter().all(|&n| n > 0) {
            break;
        }
    }
    report.check(changed.iter().all(|&n| n > 0), || format!("last bytes changed: {changed:?}"));
    report.end();
}

/// The vectors' damaged run by the library: each block as the second implementation reads it, which its sheets agree with.
fn damaged_vector(report: &mut Report, random: &mut Random, reader: &Reader) {
    report.begin("runs: the vectors' damaged run");
    let (inputs, stream) = (vectors_test::run_inputs(), vectors_test::load("run/run.damaged"));
    for (k, input) in inputs.iter().enumerate() {
        let (ours, _) = compare(report, random, reader, part(&stream, k));
        let is_back = ours.is_handed_out(&input.main, input.first);
        report.check(is_back == (k != 1), || format!("block {k}: {}", ours.told()));
    }
    report.end();
}

pub fn all(report: &mut Report, random: &mut Random, t: &Tables, reader: &Reader) {
    written(report, random, t, 1..=40);
    refusals(report, random, t, 5_000);
    ends(report, random, t);
    chosen(report, random, t, reader, &[1, 2, 3, 5, 8, 13, 40]);
    one_damaged(report, random, t, reader, &[1, 2, 3, 4, 6]);
    seams(report, random, t, reader);
    damaged_vector(report, random, reader);
}
