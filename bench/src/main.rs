//! The speed of the proved library beside libfec, one thread, as MB/s of main data and as ratios, and of the capture reader as MB/s of capture. `bench/run` builds
//! and runs it.
//! Nothing is cleared but what a call would find changed: before each call of the repairer the damaged block is copied into the block buffer anew, before
//! libfec's decoding too, and that copy is not timed. Nor is the list of marked places that libfec takes for marks. Tables that a call needs are made within it, as
//! for a user. Caches are warm: a figure is the best of 25 rounds of 12 calls, and where two are compared their rounds take turns.
#![allow(dead_code)]
#[path = "../../tests/src/block.rs"]
mod block;
#[path = "../../tests/src/capture.rs"]
mod capture;
mod captures;
#[path = "../../tests/src/gf.rs"]
mod gf;
#[path = "../../tests/src/library.rs"]
mod library;
mod peer;
#[path = "../../tests/src/random.rs"]
mod random;
#[path = "../../tests/src/reading.rs"]
mod reading;
#[path = "../../tests/src/rs.rs"]
mod rs;
#[path = "../../tests/src/tables.rs"]
mod tables;
mod timing;
#[path = "../../tests/src/writing.rs"]
mod writing;

use peer::{Peer, Places};
use random::Random;
use timing::{beside, rate, seconds};
use writing::{Record, LAID, SECTOR};

const MAIN: usize = 32_768;
const BLOCK: usize = 37_856;
const BLOCK_STREAM: usize = 16 * LAID;
const STREAM: usize = 77_380;
const FIRST: u32 = 0x030000;

fn encode(main: &[u8], block: &mut [u8]) {
    assert_eq!(library::encode_block(main, None, FIRST, 0, block), 0);
}

/// Block k of a run, the block maker and sixteen sectors, from the record that the block before left; the record after it.
fn write_block(main: &[u8], k: u32, after: Record, stream: &mut [u8]) -> Record {
    let mut record = after;
    let (previous, first) = (k.checked_sub(1).map(|before| FIRST + 16 * before), FIRST + 16 * k);
    assert_eq!(library::write_block(&mut record, previous, main, first, 0, &mut stream[..BLOCK_STREAM]), 0);
    record
}

/// The sixteen sectors of a block from the record of a new run, and the closing code.
fn write(block: &[u8], stream: &mut [u8]) {
    let mut record = Record::start();
    assert_eq!(library::write_sectors(&mut record, block, &mut stream[..BLOCK_STREAM]), 0);
    assert_eq!(library::close(&mut record, &mut stream[BLOCK_STREAM..]), 0);
}

/// Trials of sectors, none of which is taken.
fn try_sectors(block: &[u8], stream: &[u8]) {
    let mut record = Record::start();
    for (bytes, laid) in block.chunks(SECTOR).zip(stream.chunks(LAID)) {
        assert_eq!(library::trial(&mut record, bytes, laid), 0);
    }
}

/// A trial and a take of each sector.
fn take_sectors(block: &[u8], stream: &mut [u8]) {
    let mut record = Record::start();
    for (bytes, laid) in block.chunks(SECTOR).zip(stream.chunks_mut(LAID)) {
        assert_eq!(library::trial(&mut record, bytes, laid), 0);
        assert_eq!(library::take(&mut record, bytes, laid), 0);
    }
}

fn read_sectors(stream: &[u8], block: &mut [u8], erasures: &mut [u8]) {
    let mut tallies = [0; 2];
    for (s, (bytes, marks)) in block.chunks_mut(SECTOR).zip(erasures.chunks_mut(SECTOR)).enumerate() {
        assert_eq!(library::read_sector(&stream[LAID * s..][..LAID + 2], bytes, marks, &mut tallies), 0);
    }
}

/// What the calls work on, made once.
struct Bench {
    main: Vec<u8>,
    block: Vec<u8>,
    stream: Vec<u8>,
    given: Vec<u8>,
    erasures_given: Vec<u8>,
    work: Vec<u8>,
    erasures_read: Vec<u8>,
    out: Vec<u8>,
    laid: Vec<u8>,
    peer: Peer,
}

impl Bench {
    fn new(random: &mut Random) -> Bench {
        let main = random.bytes(MAIN);
        let (mut block, mut stream) = (vec![0; BLOCK], vec![0; STREAM]);
        encode(&main, &mut block);
        write(&block, &mut stream);
        Bench {
            given: block.clone(),
            erasures_given: vec![0; BLOCK],
            work: vec![0; BLOCK],
            erasures_read: vec![0; BLOCK],
            out: vec![0; MAIN],
            laid: vec![0; STREAM],
            peer: Peer::new(),
            main,
            block,
            stream,
        }
    }

    /// The record after the first block of a run.
    fn first_block(&mut self) -> Record {
        let record = write_block(&self.main, 0, Record::start(), &mut self.laid);
        assert!(self.laid[..BLOCK_STREAM] == self.stream[..BLOCK_STREAM], "a block of a run differs");
        record
    }

    fn repair(&mut self) {
        let mut report = [0; 6];
        assert_eq!(library::repair_block(&mut self.work, &self.erasures_given, &mut self.out, &mut report), 0);
    }

    fn read(&mut self, stream: &[u8]) {
        let mut report = [0; 8];
        assert_eq!(library::read_block(stream, &mut self.work, &mut self.erasures_read, &mut self.out, &mut report), 0);
    }

    /// The repair of `given` with its marks, ours and libfec's, and whether both give the main rows and columns back.
    fn repairs(&mut self) -> [f64; 2] {
        let anew = |b: &mut Bench| b.work.copy_from_slice(&b.given);
        let places = Places::of(&self.erasures_given);
        let times = beside(self, anew, Bench::repair, |b| b.peer.decode(&mut b.work, &places));
        let data = |block: &[u8]| -> Vec<u8> { block.chunks(182).flat_map(|r| r[..172].to_vec()).collect() };
        assert!(self.out == self.main, "the repair differs");
        assert!(data(&self.work) == data(&self.block), "libfec's repair differs");
        times
    }

    /// The block as it was made, without marks.
    fn give_anew(&mut self) {
        self.given.copy_from_slice(&self.block);
        self.erasures_given.fill(0);
    }

    /// `count` wrong bytes in each row.
    fn damage_rows(&mut self, random: &mut Random, count: usize) {
        self.give_anew();
        for row in self.given.chunks_mut(182) {
            random.places(182, count).into_iter().for_each(|p| row[p] ^= 1 + random.below(255) as u8);
        }
    }

    /// `count` unknown words in each row: zeros, and marked.
    fn erase_in_rows(&mut self, random: &mut Random, count: usize) {
        self.give_anew();
        for (row, marks) in self.given.chunks_mut(182).zip(self.erasures_given.chunks_mut(182)) {
            for at in random.places(182, count) {
                (row[at], marks[at]) = (0, 1);
            }
        }
    }

    /// Eight rows of random bytes.
    fn damage_whole_rows(&mut self, random: &mut Random) {
        self.give_anew();
        for q in random.places(208, 8) {
            self.given[182 * q..][..182].copy_from_slice(&random.bytes(182));
        }
    }
}

fn line(work: &str, ours: f64, theirs: Option<(&str, f64)>) {
    let rate_of = rate(MAIN, ours);
    match theirs {
        None => println!("| {work} | {rate_of:.1} | | |"),
        Some((name, t)) => println!("| {work} | {rate_of:.1} | {:.1} ({name}) | {:.1} |", rate(MAIN, t), t / ours),
    }
}

fn table(b: &mut Bench, random: &mut Random) {
    println!("| work | MB/s of main data | libfec, MB/s | times libfec |");
    println!("|---|---|---|---|");
    let nothing = |_: &mut Bench| {};
    let [ours, theirs] = beside(b, nothing, |b| encode(&b.main, &mut b.work), |b| b.peer.parity(&mut b.work));
    assert!(b.work == b.block, "a parity differs");
    line("block maker", ours, Some(("parity", theirs)));
    line("sixteen sectors and closing", seconds(b, |b| write(&b.block, &mut b.laid)), None);
    line("sixteen trials", seconds(b, |b| try_sectors(&b.block, &b.laid)), None);
    b.laid.fill(0);
    line("sixteen trials and takes", seconds(b, |b| take_sectors(&b.block, &mut b.laid)), None);
    assert!(b.laid[..BLOCK_STREAM] == b.stream[..BLOCK_STREAM], "a sector taken differs");
    let after = b.first_block();
    let second_block = |b: &mut Bench| assert_eq!(write_block(&b.main, 1, after, &mut b.laid).sectors, 32);
    line("block of a run: maker and sixteen sectors", seconds(b, second_block), None);
    line("sector reader, clean stream", seconds(b, |b| read_sectors(&b.stream, &mut b.work, &mut b.erasures_read)), None);
    let [ours, theirs] = b.repairs();
    line("repair, clean block", ours, Some(("decoding", theirs)));
    for count in 1..6 {
        b.damage_rows(random, count);
        let [ours, theirs] = b.repairs();
        line(&format!("repair, {count} wrong in each row"), ours, Some(("decoding", theirs)));
    }
    b.damage_whole_rows(random);
    let [ours, theirs] = b.repairs();
    line("repair, 8 dead rows", ours, Some(("decoding", theirs)));
    b.erase_in_rows(random, 10);
    let [ours, theirs] = b.repairs();
    line("repair, 10 unknown in each row, with marks", ours, Some(("decoding", theirs)));
    line("two readings pooled", pooling(b, random), None);
    let stream = b.stream.clone();
    line("whole chain, clean stream", seconds(b, |b| b.read(&stream)), None);
    assert!(b.out == b.main);
}

/// Two readings pooled, with ten unknown words in each row, other ones each: the best of both columns of `beside`.
fn pooling(b: &mut Bench, random: &mut Random) -> f64 {
    b.erase_in_rows(random, 10);
    let (second, marks) = (b.given.clone(), b.erasures_given.clone());
    b.erase_in_rows(random, 10);
    let anew = |b: &mut Bench| {
        b.work.copy_from_slice(&b.given);
        b.erasures_read.copy_from_slice(&b.erasures_given);
    };
    let pool = |b: &mut Bench| assert_eq!(library::pool(&mut b.work, &mut b.erasures_read, &second, &marks), 0);
    let [one, two] = beside(b, anew, pool, pool);
    one.min(two)
}

/// How the times grow: sectors of one block, and blocks that no cache holds together.
fn growth(b: &mut Bench, random: &mut Random) {
    println!();
    println!("| sectors | trials and takes, µs | reader, µs |");
    println!("|---|---|---|");
    for n in [1, 2, 4, 8, 16] {
        let writer = seconds(b, |b| take_sectors(&b.block[..SECTOR * n], &mut b.laid));
        let reader = seconds(b, |b| read_sectors(&b.stream, &mut b.work[..SECTOR * n], &mut b.erasures_read[..SECTOR * n]));
        println!("| {n} | {:.0} | {:.0} |", 1e6 * writer, 1e6 * reader);
    }
    println!();
    println!("| blocks | maker, ms | whole chain, ms | written as a run, ms |");
    println!("|---|---|---|---|");
    for n in [1, 4, 16, 64, 256] {
        let mains: Vec<Vec<u8>> = (0..n).map(|_| random.bytes(MAIN)).collect();
        let mut blocks = vec![vec![0; BLOCK]; n];
        let start = std::time::Instant::now();
        mains.iter().zip(&mut blocks).for_each(|(m, k)| encode(m, k));
        let maker = start.elapsed().as_secs_f64();
        let mut streams = vec![vec![0; STREAM]; n];
        blocks.iter().zip(&mut streams).for_each(|(k, s)| write(k, s));
        let start = std::time::Instant::now();
        streams.iter().for_each(|s| b.read(s));
        let chain = start.elapsed().as_secs_f64();
        assert!(b.out == mains[n - 1]);
        let start = std::time::Instant::now();
        let blocks_of_run = mains.iter().zip(&mut streams).zip(0..);
        let last = blocks_of_run.fold(Record::start(), |record, ((m, s), k)| write_block(m, k, record, s));
        let run = start.elapsed().as_secs_f64();
        assert_eq!(last.sectors as usize, 16 * n);
        println!("| {n} | {:.2} | {:.2} | {:.2} |", 1e3 * maker, 1e3 * chain, 1e3 * run);
    }
}

fn main() {
    let mut random = Random::new(1);
    let mut bench = Bench::new(&mut random);
    table(&mut bench, &mut random);
    captures::table(&mut random);
    growth(&mut bench, &mut random);
}
