//! Blocks that follow on: a long run written and read block by block, with damage, and what the writer keeps from block to block.
mod common;

use chamanzil::{encode_block, format_block, read_block, zero_runs_hold, BlockRead, Tally};
use chamanzil::{Record, Refusal, Writer};
use chamanzil::{BLOCK_STREAM, CLOSING, MAIN, SECTOR, SECTOR_STREAM, STREAM};
use common::{buffer, main_data, Numbers};

/// Blocks of the long run. Its last one has the highest number there is.
const BLOCKS: u32 = 2_000;
const INFORMATION: u8 = 0x25;

fn first_of(k: u32) -> u32 {
    16_777_200 - 16 * (BLOCKS - 1 - k)
}

fn main_of(k: u32) -> Box<[u8; MAIN]> {
    main_data(1_000_000 + u64::from(k))
}

/// What becomes of a block's stream before it is read.
#[derive(Clone, Copy, PartialEq, Eq)]
enum Fate {
    Clean,
    /// Eight rows overwritten, and in each of the others one bit flipped.
    Scratched,
    /// Nothing of its sectors is left.
    Destroyed,
    /// Bit 15 of the SYNC Code after it flipped, by which its last word is judged.
    CodeAfterFlipped,
}

fn fate(k: u32) -> Fate {
    match k % 10 {
        3 => Fate::Scratched,
        6 if k % 50 == 6 => Fate::Destroyed,
        8 => Fate::CodeAfterFlipped,
        _ => Fate::Clean,
    }
}

fn scratch(stream: &mut [u8; STREAM], numbers: &mut Numbers) {
    let heavy: Vec<usize> = (0..8).map(|_| numbers.below(208)).collect();
    for (row, part) in stream.chunks_exact_mut(372).enumerate() {
        if heavy.contains(&row) {
            part.copy_from_slice(&numbers.bytes(372));
        } else {
            part[numbers.below(372)] ^= 1 << numbers.below(8);
        }
    }
}

/// The last block that was written, until the four bytes after it are known.
struct Pending {
    k: u32,
    fate: Fate,
    /// Its first SYNC Code as the writer wrote it.
    code: [u8; 4],
    stream: Box<[u8; STREAM]>,
}

impl Pending {
    fn new(k: u32, sectors: &[u8; BLOCK_STREAM], numbers: &mut Numbers) -> Self {
        let mut stream = buffer::<STREAM>(0);
        stream[..BLOCK_STREAM].copy_from_slice(sectors);
        let fate = fate(k);
        match fate {
            Fate::Scratched => scratch(&mut stream, numbers),
            Fate::Destroyed => {
                stream[..BLOCK_STREAM].copy_from_slice(&numbers.bytes(BLOCK_STREAM));
            }
            Fate::Clean | Fate::CodeAfterFlipped => {}
        }
        let code = sectors[..4].try_into().unwrap();
        Pending {
            k,
            fate,
            code,
            stream,
        }
    }

    /// Reads the block from its sectors and the four bytes after them, which were written so; how many rows the seam cost it.
    fn read(mut self, after: &[u8], written: [u8; 4]) -> u32 {
        let code = &mut self.stream[BLOCK_STREAM..];
        code.copy_from_slice(after);
        if self.fate == Fate::CodeAfterFlipped {
            code[0] ^= 0x80;
        }
        let is_code_lost = *code != written;
        if self.fate == Fate::Clean && !is_code_lost {
            assert!(zero_runs_hold(&self.stream[..]), "block {}", self.k);
        }
        let got = read_block(&self.stream);
        match self.fate {
            Fate::Destroyed => is_refused(self.k, got),
            Fate::Scratched => is_mended(self.k, got),
            Fate::Clean | Fate::CodeAfterFlipped => is_clean(self.k, got, is_code_lost),
        }
    }
}

fn is_refused(k: u32, got: Result<BlockRead, Refusal>) -> u32 {
    let refusal = got.expect_err("a block of which nothing is left");
    assert!((4..=6).contains(&refusal.number()), "block {k}: {refusal}");
    0
}

/// The block's own main data and first number.
fn is_back(k: u32, got: Result<BlockRead, Refusal>) -> BlockRead {
    let read = got.unwrap_or_else(|refusal| panic!("block {k}: {refusal}"));
    assert!(read.main == main_of(k), "block {k}: the main data");
    assert_eq!(read.first, first_of(k));
    read
}

fn is_mended(k: u32, got: Result<BlockRead, Refusal>) -> u32 {
    let read = is_back(k, got);
    assert!(read.columns.changed > 0, "block {k}: {read}");
    0
}

/// Nothing was changed, but for the last byte where the code after it, by which its word is judged, is not what was written.
fn is_clean(k: u32, got: Result<BlockRead, Refusal>, is_code_lost: bool) -> u32 {
    let read = is_back(k, got);
    let most = u32::from(is_code_lost);
    let Tally { changed, past_help } = read.rows;
    assert!(changed <= most && read.unknown <= most, "block {k}: {read}");
    assert_eq!((past_help, read.sync), (0, 0), "block {k}: {read}");
    assert_eq!(read.columns, Tally::default(), "block {k}: {read}");
    changed
}

/// Every block of a run of 2,000 has other main data, and is read back when the next one, or the closing code, is there; nothing but the last block is kept. Some
/// are damaged, and their neighbours still read.
#[test]
fn two_thousand_blocks() {
    let mut numbers = Numbers::new(77);
    let mut writer = Writer::new();
    let mut pending: Option<Pending> = None;
    let mut out = buffer(0);
    let mut touched = 0;
    for k in 0..BLOCKS {
        writer = writer
            .write_block(&main_of(k), first_of(k), INFORMATION, &mut out)
            .unwrap();
        assert_eq!(writer.previous(), Some(first_of(k)));
        assert_eq!(writer.record().sectors, 16 * (k + 1));
        let next = Pending::new(k, &out, &mut numbers);
        touched += pending.map_or(0, |before| before.read(&next.stream[..4], next.code));
        pending = Some(next);
    }
    let over = writer.write_block(&main_of(0), 16_777_216, INFORMATION, &mut out);
    assert_eq!(over, Err(Refusal::FirstNumber));
    let mut closing = [0; CLOSING];
    writer = writer.close(&mut closing).unwrap();
    assert!(writer.record().closed && writer.record().sectors == 16 * BLOCKS);
    touched += pending.unwrap().read(&closing, closing);
    assert!(touched > 0, "no last word was judged by the code after it");
}

/// A block at once is the block maker and sixteen sectors, by trials and takes or in one call, from any record that the run comes to.
#[test]
fn a_block_is_sixteen_sectors() {
    let (mut writer, mut by_sectors) = (Writer::new(), Writer::new());
    let mut previous = None;
    for k in 0..20 {
        let (main, first) = (main_of(k), first_of(k));
        let (mut whole, mut parts) = (buffer(0), buffer::<BLOCK_STREAM>(0));
        writer = writer
            .write_block(&main, first, INFORMATION, &mut whole)
            .unwrap();
        let block = encode_block(&main, previous, first, INFORMATION).unwrap();
        let mut at_once = buffer(0);
        let laid = by_sectors.write_sectors(&block, &mut at_once).unwrap();
        for (sector, out) in block.chunks(SECTOR).zip(parts.chunks_mut(SECTOR_STREAM)) {
            let sector = sector.try_into().unwrap();
            let trial = by_sectors.trial(sector).unwrap();
            by_sectors = trial.take(sector, out.try_into().unwrap()).unwrap();
            assert_eq!(by_sectors.record().dsv, trial.dsv());
        }
        assert!(whole == parts && whole == at_once, "block {k}");
        assert_eq!(laid, by_sectors);
        assert_eq!(writer.record(), by_sectors.record());
        assert_eq!(by_sectors.previous(), None);
        previous = writer.previous();
    }
    let (mut one, mut other) = ([0; CLOSING], [0; CLOSING]);
    let (a, b) = (writer.close(&mut one), by_sectors.close(&mut other));
    assert_eq!((a.unwrap().record(), one), (b.unwrap().record(), other));
}

/// The formatter's stream is the run of one block. A second block starts where the first ends: from a new record its stream would be another.
#[test]
fn one_block_and_another() {
    let mut stream = buffer::<STREAM>(0);
    let (sectors, closing) = stream.split_at_mut(BLOCK_STREAM);
    let main = main_of(0);
    let writer = Writer::new()
        .write_block(&main, 16, 0, sectors.try_into().unwrap())
        .unwrap();
    writer.close(closing.try_into().unwrap()).unwrap();
    assert!(stream == format_block(&main, 16, 0).unwrap());
    // the zero runs go on into the four bytes after a block
    assert!(zero_runs_hold(&stream[..]));
    stream[BLOCK_STREAM + 3] ^= 0x08;
    assert!(!zero_runs_hold(&stream[..]));
    assert_ne!(
        Record {
            sectors: 0,
            ..writer.record()
        },
        Record::new()
    );
    let (mut second, mut anew) = (buffer(0), buffer(0));
    writer.write_block(&main, 32, 0, &mut second).unwrap();
    Writer::new().write_block(&main, 32, 0, &mut anew).unwrap();
    assert!(second != anew);
}

/// A run that is interrupted goes on from its record and the first number of its last block.
#[test]
fn goes_on_from_a_record() {
    let mut writer = Writer::new();
    let mut out = buffer(0);
    for k in 0..3 {
        let kept = (writer.record(), writer.previous());
        let mut again = buffer(0);
        let anew = Writer::from_record(kept.0, kept.1)
            .write_block(&main_of(k), first_of(k), 0, &mut again)
            .unwrap();
        writer = writer
            .write_block(&main_of(k), first_of(k), 0, &mut out)
            .unwrap();
        assert_eq!(writer, anew);
        assert!(out == again, "block {k}");
    }
    // a refusal leaves the caller's own writer, which goes on
    let refused = writer.write_block(&main_of(3), first_of(2), 0, &mut out);
    assert_eq!(refused, Err(Refusal::Sequence));
    assert_eq!(writer.previous(), Some(first_of(2)));
    let next = writer.write_block(&main_of(3), first_of(3), 0, &mut out);
    assert_eq!(next.unwrap().record().sectors, 64);
}
