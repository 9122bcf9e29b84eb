//! The choice between two streams (ECMA-268, clause 22; document 01), and streams with random choices: the second implementation.
use crate::random::Random;
use crate::tables::{joins, sync_numbers, Entry, Tables, SYNC_END};

pub const SECTOR: usize = 2_366;
pub const LAID: usize = 4_836;
/// The most sectors of a run (document 02, request 1).
pub const RUN_SECTORS: u32 = 16_777_216;

/// The writer's record.
#[derive(Clone, Copy, Debug, PartialEq, Eq)]
pub struct Record {
    pub state: u8,
    pub level: u8,
    pub dsv: i64,
    pub sectors: u32,
    pub closed: bool,
    /// The greatest absolute DSV at the end of any Sync Frame so far (document 02, request 4).
    pub peak: u64,
    /// The DSV that the last trial gave, if there was one (document 02, request 5).
    pub mark: Option<i64>,
}

impl Record {
    pub fn start() -> Record {
        Record::open(1, 0, 0, 0)
    }

    /// A record before closing, with the lowest peak that goes with its DSV, and no mark.
    pub fn open(state: u8, level: u8, dsv: i64, sectors: u32) -> Record {
        Record { state, level, dsv, sectors, closed: false, peak: dsv.unsigned_abs(), mark: None }
    }

    /// Whether a run may be closed here: after the last sector of a block.
    fn is_between_blocks(&self) -> bool {
        self.sectors > 0 && self.sectors % 16 == 0
    }

    /// Refusal 9.
    pub fn is_bad(&self) -> bool {
        let most = 38_688 * self.sectors as i128;
        let (dsv, peak) = ((self.dsv as i128).abs(), self.peak as i128);
        let closing = if self.closed { 32 } else { 0 };
        !(1..=4).contains(&self.state)
            || self.level > 1
            || self.sectors > RUN_SECTORS
            || (self.closed && !self.is_between_blocks())
            || dsv > most + closing
            || peak < dsv - closing
            || peak > most
    }

    /// Refusals 9 and 7 of a call that writes so many sectors.
    pub fn run_refusal(&self, count: u32) -> u32 {
        if self.is_bad() {
            9
        } else if self.closed || self.sectors as u64 + count as u64 > RUN_SECTORS as u64 {
            7
        } else {
            0
        }
    }

    /// What a trial and a take are refused with but for the mark.
    pub fn sector_refusal(&self, from: usize, to: usize) -> u32 {
        if from != SECTOR || to != LAID {
            1
        } else {
            self.run_refusal(1)
        }
    }

    /// Refusals 12 and 13 of a take, by the DSV after its sector (document 02, request 5).
    fn mark_refusal(&self, dsv: i64) -> u32 {
        match self.mark {
            None => 12,
            Some(mark) if mark != dsv => 13,
            Some(_) => 0,
        }
    }

    /// A trial of bytes in a buffer of some length: the DSV after the sector, which becomes the mark, or the number. `lay` is the sector from a record, and the
    /// record after it.
    pub fn trial(&mut self, from: usize, to: usize, lay: impl FnOnce(&Record) -> (Vec<u8>, Record)) -> Result<i64, u32> {
        match self.sector_refusal(from, to) {
            0 => {
                let dsv = lay(self).1.dsv;
                self.mark = Some(dsv);
                Ok(dsv)
            }
            refusal => Err(refusal),
        }
    }

    /// A take likewise: the sector, or the number.
    pub fn take(&mut self, from: usize, to: usize, lay: impl FnOnce(&Record) -> (Vec<u8>, Record)) -> Result<Vec<u8>, u32> {
        let refusal = self.sector_refusal(from, to);
        if refusal != 0 {
            return Err(refusal);
        }
        let (stream, after) = lay(self);
        match self.mark_refusal(after.dsv) {
            0 => {
                *self = after;
                Ok(stream)
            }
            refusal => Err(refusal),
        }
    }

    pub fn closing_refusal(&self, to: usize) -> u32 {
        if to != 4 {
            1
        } else if self.is_bad() {
            9
        } else if self.closed {
            7
        } else if !self.is_between_blocks() {
            8
        } else {
            0
        }
    }
}

/// One of the two streams within a frame.
#[derive(Clone)]
struct Stream {
    halves: Vec<u16>,
    state: u8,
    level: u8,
    dsv: i64,
}

impl Stream {
    /// Nothing laid yet, from a record.
    fn after(record: &Record) -> Stream {
        Stream {
            halves: Vec::new(),
            state: record.state,
            level: record.level,
            dsv: record.dsv,
        }
    }

    fn lay(&mut self, half: u16) {
        for n in (0..16).rev() {
            self.level ^= (half >> n & 1) as u8;
            self.dsv += if self.level == 1 { 1 } else { -1 };
        }
        self.halves.push(half);
    }

    fn lay_sync(&mut self, first: u16) {
        self.lay(first);
        self.lay(SYNC_END);
        self.state = 1;
    }

    fn lay_entry(&mut self, e: Entry) {
        self.lay(e.word);
        self.state = e.next;
    }

    fn last(&self) -> u16 {
        *self.halves.last().unwrap()
    }

    fn swaps(&self, t: &Tables, byte: u8) -> bool {
        let fits = |state| joins(self.last(), t.main_word(byte, state).word);
        byte >= 88 && (self.state == 1 || self.state == 4) && fits(1) && fits(4)
    }
}

/// What the rule did in a frame, as the vectors' traces tell it.
pub struct FrameTrace {
    pub code: usize,
    pub shown: usize,
    pub tried: bool,
    pub changed: bool,
    pub first: u16,
    pub dsvs: [i64; 2],
    pub state: u8,
    pub level: u8,
    /// The DSV of the shown stream before the other code was tried, and with the other code.
    pub dsv_kept_and_other: [i64; 2],
}

fn lower(streams: &[Stream; 2]) -> usize {
    usize::from(streams[1].dsv.abs() < streams[0].dsv.abs())
}

fn step(t: &Tables, streams: &mut [Stream; 2], byte: u8) {
    let low = lower(streams);
    let swaps = [streams[0].swaps(t, byte), streams[1].swaps(t, byte)];
    let is_split = byte < 88 || (swaps[0] && swaps[1]) || swaps[low];
    if is_split {
        streams[1 - low] = streams[low].clone();
    }
    let [one, two] = streams;
    if byte < 88 {
        one.lay_entry(t.main_word(byte, one.state));
        two.lay_entry(t.sub_word(byte, two.state));
    } else if is_split {
        one.lay_entry(t.main_word(byte, 1));
        two.lay_entry(t.main_word(byte, 4));
    } else {
        one.lay_entry(t.main_word(byte, one.state));
        two.lay_entry(t.main_word(byte, two.state));
    }
}

fn frame(t: &Tables, record: &mut Record, code: usize, bytes: &[u8], out: &mut Vec<u16>) -> FrameTrace {
    let empty = Stream::after(record);
    let codes = t.codes(record.state, code);
    let mut streams = [empty.clone(), empty.clone()];
    streams[0].lay_sync(codes[0]);
    streams[1].lay_sync(codes[1]);
    bytes.iter().for_each(|&b| step(t, &mut streams, b));
    let dsvs = [streams[0].dsv, streams[1].dsv];
    let shown = lower(&streams);
    let mut kept = streams[shown].clone();
    let tried = kept.dsv > 63 || kept.dsv < -64;
    let other = with_code(&empty, &kept, codes[usize::from(kept.halves[0] == codes[0])]);
    let dsv_kept_and_other = [kept.dsv, other.dsv];
    let changed = tried && other.dsv.abs() < kept.dsv.abs();
    if changed {
        kept = other;
    }
    let first = kept.halves[0];
    (record.state, record.level, record.dsv) = (kept.state, kept.level, kept.dsv);
    out.extend(kept.halves);
    FrameTrace {
        code,
        shown: shown + 1,
        tried,
        changed,
        first,
        dsvs,
        state: record.state,
        level: record.level,
        dsv_kept_and_other,
    }
}

/// The same words after another SYNC Code, counted anew from the frame's start.
fn with_code(empty: &Stream, laid: &Stream, first: u16) -> Stream {
    let mut other = empty.clone();
    other.lay(first);
    laid.halves[1..].iter().for_each(|&h| other.lay(h));
    other.state = laid.state;
    other
}

fn packed(halves: &[u16]) -> Vec<u8> {
    halves.iter().flat_map(|h| h.to_be_bytes()).collect()
}

/// The greatest of the absolute DSVs at the ends of a stream's Sync Frames, 186 bytes each, and of what the record before them held (document 02, request 4):
/// counted over the bits as they were written.
fn peak_after(before: &Record, stream: &[u8]) -> u64 {
    let (mut level, mut dsv, mut peak) = (before.level, before.dsv, before.peak);
    for frame in stream.chunks(186) {
        for bit in frame.iter().flat_map(|byte| (0..8).rev().map(move |n| byte >> n & 1)) {
            level ^= bit;
            dsv += if level == 1 { 1 } else { -1 };
        }
        peak = peak.max(dsv.unsigned_abs());
    }
    peak
}

/// A sector, which drops a mark.
pub fn write_sector(t: &Tables, record: &mut Record, bytes: &[u8]) -> (Vec<u8>, Vec<FrameTrace>) {
    let before = *record;
    let mut halves = Vec::new();
    let frames = bytes.chunks(91).zip(sync_numbers());
    let traces = frames.map(|(part, code)| frame(t, record, code, part, &mut halves)).collect();
    let stream = packed(&halves);
    record.sectors += 1;
    record.peak = peak_after(&before, &stream);
    record.mark = None;
    (stream, traces)
}

/// How a run was closed.
pub struct Closing {
    pub code: Vec<u8>,
    /// The DSV after the Primary and after the Secondary code.
    pub dsvs: [i64; 2],
}

/// The SY0 of the prescribed class with the lower absolute DSV, the Primary where both are equal (document 02, request 7). It does not count towards the peak, and
/// drops a mark.
pub fn close(t: &Tables, record: &mut Record) -> Closing {
    let [primary, secondary] = t.codes(record.state, 0).map(|first| {
        let mut stream = Stream::after(record);
        stream.lay_sync(first);
        stream
    });
    let dsvs = [primary.dsv, secondary.dsv];
    let written = if secondary.dsv.abs() < primary.dsv.abs() { secondary } else { primary };
    (record.state, record.level, record.dsv) = (written.state, written.level, written.dsv);
    record.closed = true;
    record.mark = None;
    Closing { code: packed(&written.halves), dsvs }
}

/// A run of whole blocks by the two-stream rule, and the record after each sector and after closing.
pub fn write_run(t: &Tables, blocks: &[u8]) -> (Vec<u8>, Vec<Record>) {
    let mut record = Record::start();
    let mut stream = Vec::new();
    let mut records = Vec::new();
    for sector in blocks.chunks(SECTOR) {
        stream.extend(write_sector(t, &mut record, sector).0);
        records.push(record);
    }
    stream.extend(close(t, &mut record).code);
    records.push(record);
    (stream, records)
}

/// The half words that may stand for a byte in a State, with their next States (document 01, 'Permitted choices').
pub fn permitted(t: &Tables, byte: u8, state: u8, last: u16) -> Vec<Entry> {
    if byte < 88 {
        return vec![t.main_word(byte, state), t.sub_word(byte, state)];
    }
    if state == 2 || state == 3 {
        return vec![t.main_word(byte, state)];
    }
    let both = [t.main_word(byte, 1), t.main_word(byte, 4)];
    both.into_iter().filter(|e| joins(last, e.word)).collect()
}

/// Picks one of several half words.
pub trait Chooser {
    fn pick(&mut self, words: &[u16]) -> Option<usize>;
}

impl Chooser for Random {
    fn pick(&mut self, words: &[u16]) -> Option<usize> {
        Some(self.below(words.len()))
    }
}

/// Takes the words that another stream has, one after the other.
pub struct Follow<'a> {
    pub stream: &'a [u8],
    pub at: usize,
}

impl Chooser for Follow<'_> {
    fn pick(&mut self, words: &[u16]) -> Option<usize> {
        let half = u16::from_be_bytes([*self.stream.get(self.at)?, *self.stream.get(self.at + 1)?]);
        self.at += 2;
        words.iter().position(|&w| w == half)
    }
}

/// One of the two codes of a class, as a chooser takes it.
fn permitted_code(codes: [u16; 2], chooser: &mut dyn Chooser) -> Option<[u16; 2]> {
    let first = codes[chooser.pick(&codes)?];
    chooser.pick(&[SYNC_END])?;
    Some([first, SYNC_END])
}

/// The permitted stream of a run of blocks that a chooser takes, its closing code too, or none where the chooser finds no permitted word.
pub fn permitted_stream(t: &Tables, blocks: &[u8], chooser: &mut dyn Chooser) -> Option<Vec<u8>> {
    let mut halves = Vec::new();
    let mut state = 1;
    for (f, part) in blocks.chunks(91).enumerate() {
        halves.extend(permitted_code(t.codes(state, sync_numbers()[f % 26]), chooser)?);
        state = 1;
        for &byte in part {
            let entries = permitted(t, byte, state, *halves.last().unwrap());
            let words: Vec<u16> = entries.iter().map(|e| e.word).collect();
            let e = entries[chooser.pick(&words)?];
            halves.push(e.word);
            state = e.next;
        }
    }
    halves.extend(permitted_code(t.codes(state, 0), chooser)?);
    Some(packed(&halves))
}
