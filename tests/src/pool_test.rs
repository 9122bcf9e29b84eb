//! Two readings of one block pooled (document 02, request 8), by the library and the second implementation: readings made place by place, both ways, with
//! themselves, and those that are refused. pooled_test.rs has what the repair then brings back.
use crate::block::BLOCK;
use crate::library;
use crate::light_test::other_than_0;
use crate::pool::{pool, Lent};
use crate::random::Random;
use crate::report::Report;

// ---- one call, by both

/// Stands before and after each lent buffer, and no call changes it.
const AROUND: [u8; 16] = [0xA5; 16];

fn guarded(first: &Lent, second: &Lent) -> [Vec<u8>; 4] {
    [&first.bytes, &first.erasures, &second.bytes, &second.erasures].map(|buffer| [&AROUND, &buffer[..], &AROUND].concat())
}

fn inside(guarded: &mut [u8]) -> &mut [u8] {
    let end = guarded.len() - AROUND.len();
    &mut guarded[AROUND.len()..end]
}

/// The library leaves the pooled reading in place of the first, or with a number everything; the second reading always.
fn leaves(report: &mut Report, first: &Lent, second: &Lent, due: &Result<Lent, u32>) {
    let (number, left) = match due {
        Ok(pooled) => (0, pooled),
        Err(number) => (*number, first),
    };
    let mut ours = guarded(first, second);
    let [bytes, erasures, second_bytes, second_erasures] = ours.each_mut().map(|buffer| inside(buffer));
    let answer = library::pool(bytes, erasures, second_bytes, second_erasures);
    let theirs = guarded(left, second);
    report.check(answer == number && ours == theirs, || {
        let is_same: Vec<bool> = ours.iter().zip(&theirs).map(|(our, their)| our == their).collect();
        format!("{answer} for {number}, lengths {:?}, buffers {is_same:?}", ours.each_ref().map(|our| our.len() - 2 * AROUND.len()))
    });
}

/// By both, readings that are not refused; what the second implementation makes of them.
pub fn compare(report: &mut Report, first: &Lent, second: &Lent) -> Lent {
    let due = pool(first, second);
    leaves(report, first, second, &due);
    due.unwrap()
}

/// By both, as it is settled beforehand.
pub fn is_due(report: &mut Report, first: &Lent, second: &Lent, due: &Result<Lent, u32>) {
    leaves(report, first, second, due);
    let theirs = pool(first, second);
    let numbers = [&theirs, due].map(|result| result.as_ref().err());
    report.check(theirs == *due, || format!("the second implementation has another reading, or number: {numbers:?}"));
}

// ---- readings place by place

/// Bytes and marks of one place in both readings.
struct Place {
    bytes: [u8; 2],
    marks: [u8; 2],
}

fn readings(place: impl FnMut(usize) -> Place) -> [Lent; 2] {
    let places: Vec<Place> = (0..BLOCK).map(place).collect();
    [0, 1].map(|drive| Lent {
        bytes: places.iter().map(|place| place.bytes[drive]).collect(),
        erasures: places.iter().map(|place| place.marks[drive]).collect(),
    })
}

const CASES: usize = 20;

/// Each pair of marks over bytes that are both 0, equal, the first 0, the second 0, or different and neither 0.
fn case(random: &mut Random, number: usize) -> Place {
    let one = other_than_0(random);
    let other = 1 + ((one as usize + random.below(254)) % 255) as u8;
    assert_ne!(one, other);
    let bytes = [[0, 0], [one, one], [0, one], [one, 0], [one, other]][number / 4];
    Place { bytes, marks: [number & 1, number >> 1 & 1].map(|mark| mark as u8) }
}

fn each_case_at_each_place(report: &mut Report, random: &mut Random) {
    report.begin("pool: each case of marks and bytes at each place");
    for shift in 0..CASES {
        let [first, second] = readings(|at| case(random, (at + shift) % CASES));
        compare(report, &first, &second);
    }
    report.end();
}

/// All 2^18 pairs of marks and of bytes, one a place, in an order that an odd step makes of them.
fn each_pair(report: &mut Report, random: &mut Random) {
    report.begin("pool: each pair of marks and of bytes");
    const ALL: usize = 4 << 16;
    let (start, step) = (random.below(ALL), 2 * random.below(ALL / 2) + 1);
    for from in (0..ALL).step_by(BLOCK) {
        let [first, second] = readings(|at| {
            let number = (start + step * (from + at)) % ALL;
            Place { bytes: [number as u8, (number >> 8) as u8], marks: [number >> 16 & 1, number >> 17].map(|mark| mark as u8) }
        });
        compare(report, &first, &second);
    }
    report.end();
}

/// In a thousand places.
const DENSITIES: [usize; 5] = [0, 5, 100, 500, 1_000];

/// Of a thousand places so many are marked in the first reading, in the second, and have another byte in the second. Under marks there is anything.
fn random_readings(random: &mut Random, densities: [usize; 3]) -> [Lent; 2] {
    readings(|_| {
        let [marked, marked_second, differs] = densities.map(|density| random.below(1_000) < density);
        let byte = random.byte();
        let other = if differs { random.byte() } else { byte };
        Place { bytes: [byte, other], marks: [marked as u8, marked_second as u8] }
    })
}

fn any_readings(random: &mut Random) -> [Lent; 2] {
    let densities = [(); 3].map(|_| DENSITIES[random.below(DENSITIES.len())]);
    random_readings(random, densities)
}

fn each_density(report: &mut Report, random: &mut Random) {
    report.begin("pool: random readings, few to all places marked, few to all different");
    for number in 0..DENSITIES.len().pow(3) {
        let densities = [1, 5, 25].map(|unit| DENSITIES[number / unit % 5]);
        let [first, second] = random_readings(random, densities);
        compare(report, &first, &second);
    }
    report.end();
}

fn both_ways(report: &mut Report, random: &mut Random, count: usize) {
    report.begin("pool: both ways");
    for _ in 0..count {
        let [first, second] = any_readings(random);
        let pooled = compare(report, &first, &second);
        is_due(report, &second, &first, &Ok(pooled));
    }
    report.end();
}

/// It is the same reading, with byte 0 at the marked places.
fn with_itself(report: &mut Report, random: &mut Random, count: usize) {
    report.begin("pool: a reading with itself");
    for _ in 0..count {
        let [reading, _] = any_readings(random);
        let bytes = reading.bytes.iter().zip(&reading.erasures).map(|(byte, mark)| byte * (1 - mark)).collect();
        is_due(report, &reading, &reading, &Ok(Lent { bytes, ..reading.clone() }));
    }
    report.end();
}

// ---- refusals

/// Number 1 for every choice of seven lengths for the four buffers but the one that is stated, and for buffers that are nowhere. Half of them have marks that are
/// neither 0 nor 1: 1 goes before 11.
fn other_lengths(report: &mut Report, random: &mut Random) {
    report.begin("pool: refusal 1");
    let any = random.bytes(2 * BLOCK + 2);
    let marks = [any.iter().map(|byte| byte & 1).collect(), any.clone()];
    for number in 1..7usize.pow(4) {
        let another = [random.below(BLOCK), BLOCK + 1 + random.below(BLOCK)][random.below(2)];
        let lengths = [BLOCK, 0, 1, BLOCK - 1, BLOCK + 1, 2 * BLOCK, another];
        let [b, e, c, f] = [1, 7, 49, 343].map(|unit| lengths[number / unit % 7]);
        let marks: &Vec<u8> = &marks[random.below(2)];
        let first = Lent { bytes: any[..b].to_vec(), erasures: marks[..e].to_vec() };
        let second = Lent { bytes: any[1..][..c].to_vec(), erasures: marks[2..][..f].to_vec() };
        is_due(report, &first, &second, &Err(1));
    }
    let answer = library::pool(&mut [], &mut [], &[], &[]);
    report.check(answer == 1, || format!("nothing: {answer}"));
    report.end();
}

fn with_mark(reading: &Lent, place: usize, mark: u8) -> Lent {
    let mut marked = reading.clone();
    marked.erasures[place] = mark;
    marked
}

/// Number 11 for each mark that is neither 0 nor 1, first, last and anywhere, in either reading and in both.
fn other_marks(report: &mut Report, random: &mut Random) {
    report.begin("pool: refusal 11");
    for (mark, place) in (2..=255).flat_map(|mark| [Some(0), Some(BLOCK - 1), None].map(|place| (mark, place))) {
        let [first, second] = any_readings(random);
        let [bad, bad_second] = [&first, &second].map(|reading| with_mark(reading, place.unwrap_or(random.below(BLOCK)), mark));
        let pairs = [(&bad, &second), (&first, &bad_second), (&bad, &bad_second)];
        pairs.into_iter().for_each(|(one, other)| is_due(report, one, other, &Err(11)));
    }
    report.end();
}

pub fn all(report: &mut Report, random: &mut Random) {
    each_case_at_each_place(report, random);
    each_pair(report, random);
    each_density(report, random);
    both_ways(report, random, 60);
    with_itself(report, random, 60);
    other_lengths(report, random);
    other_marks(report, random);
}
