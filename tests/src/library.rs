//! The proved library, through the C boundary of crate `ffi` as the crate `chamanzil` of rust/ declares it: a `&[u8]` passes as a pointer and a length. The
//! numbers are those of crates/ffi/specs/Answers.antt.
use crate::rs::Fate;
use crate::writing::Record;
use chamanzil::raw::*;

pub fn product(a: u8, b: u8) -> u8 {
    unsafe { chamanzil_product(a, b) }
}

pub fn power(a: u8, n: u64) -> u8 {
    unsafe { chamanzil_power(a, n) }
}

pub fn ied(id: &[u8], out: &mut [u8]) -> u32 {
    unsafe { chamanzil_ied(id.as_ptr(), id.len(), out.as_mut_ptr(), out.len()) }
}

pub fn row_parity(data: &[u8], out: &mut [u8]) -> u32 {
    unsafe { chamanzil_row_parity(data.as_ptr(), data.len(), out.as_mut_ptr(), out.len()) }
}

pub fn column_parity(data: &[u8], out: &mut [u8]) -> u32 {
    unsafe { chamanzil_column_parity(data.as_ptr(), data.len(), out.as_mut_ptr(), out.len()) }
}

pub fn correct_row(row: &mut [u8], erasures: &[u8]) -> u32 {
    unsafe { chamanzil_correct_row(row.as_mut_ptr(), row.len(), erasures.as_ptr(), erasures.len()) }
}

/// What the light repair answers: there is a code row within two bytes, and the row is that now,
pub const REPAIRED: u32 = 0;
/// or there is none, and the row is as it was.
pub const HEAVIER: u32 = 258;

pub fn correct_light_row(row: &mut [u8]) -> u32 {
    unsafe { chamanzil_correct_light_row(row.as_mut_ptr(), row.len()) }
}

pub fn correct_column(column: &mut [u8]) -> u32 {
    unsafe { chamanzil_correct_column(column.as_mut_ptr(), column.len()) }
}

/// The number for what became of a word.
pub fn fate_number(fate: Fate) -> u32 {
    match fate {
        Fate::Unchanged => 0,
        Fate::Changed => 256,
        Fate::PastHelp => 257,
    }
}

/// At the boundary the number counts only where a block comes before; where none does, any will do.
fn block_before(previous: Option<u32>) -> (bool, u32) {
    (previous.is_some(), previous.unwrap_or(0xA5A5_A5A5))
}

pub fn encode_block(main: &[u8], previous: Option<u32>, first: u32, info: u8, out: &mut [u8]) -> u32 {
    let (follows, before) = block_before(previous);
    let (to, size) = (out.as_mut_ptr(), out.len());
    unsafe { chamanzil_encode_block(main.as_ptr(), main.len(), follows, before, first, info, to, size) }
}

pub fn read_word(word: u16, following: u16) -> Option<u8> {
    let answer = unsafe { chamanzil_read_word(word, following) };
    u8::try_from(answer).ok()
}

pub fn zero_runs_hold(stream: &[u8]) -> bool {
    unsafe { chamanzil_zero_runs_hold(stream.as_ptr(), stream.len()) == 1 }
}

pub fn closing_holds(bytes: &[u8]) -> u32 {
    unsafe { chamanzil_closing_holds(bytes.as_ptr(), bytes.len()) }
}

/// The second implementation's record as the library keeps it, and back: member by member.
fn kept(r: &Record) -> chamanzil::Record {
    chamanzil::Record {
        state: r.state,
        level: r.level,
        dsv: r.dsv,
        sectors: r.sectors,
        closed: r.closed,
        peak: r.peak,
        marked: r.mark.is_some(),
        mark: r.mark.unwrap_or(0),
    }
}

/// Where there is no mark its number is 0.
fn record_of(r: chamanzil::Record) -> Record {
    assert!(r.marked || r.mark == 0, "{r:?}");
    Record {
        state: r.state,
        level: r.level,
        dsv: r.dsv,
        sectors: r.sectors,
        closed: r.closed,
        peak: r.peak,
        mark: r.marked.then_some(r.mark),
    }
}

/// What the library leaves of any old record.
pub fn new_record(old: &Record) -> Record {
    let mut r = kept(old);
    unsafe { chamanzil_new_record(&mut r) };
    record_of(r)
}

pub fn trial(record: &mut Record, bytes: &[u8], out: &[u8]) -> u32 {
    let mut r = kept(record);
    let answer = unsafe { chamanzil_trial(&mut r, bytes.as_ptr(), bytes.len(), out.as_ptr(), out.len()) };
    *record = record_of(r);
    answer
}

pub fn take(record: &mut Record, bytes: &[u8], out: &mut [u8]) -> u32 {
    let mut r = kept(record);
    let answer = unsafe { chamanzil_take(&mut r, bytes.as_ptr(), bytes.len(), out.as_mut_ptr(), out.len()) };
    *record = record_of(r);
    answer
}

pub fn write_sectors(record: &mut Record, block: &[u8], out: &mut [u8]) -> u32 {
    let mut r = kept(record);
    let answer = unsafe { chamanzil_write_sectors(&mut r, block.as_ptr(), block.len(), out.as_mut_ptr(), out.len()) };
    *record = record_of(r);
    answer
}

pub fn write_block(record: &mut Record, previous: Option<u32>, main: &[u8], first: u32, info: u8, out: &mut [u8]) -> u32 {
    let mut r = kept(record);
    let (follows, before) = block_before(previous);
    let (to, size) = (out.as_mut_ptr(), out.len());
    let answer = unsafe { chamanzil_write_block(&mut r, follows, before, main.as_ptr(), main.len(), first, info, to, size) };
    *record = record_of(r);
    answer
}

pub fn close(record: &mut Record, out: &mut [u8]) -> u32 {
    let mut r = kept(record);
    let answer = unsafe { chamanzil_close(&mut r, out.as_mut_ptr(), out.len()) };
    *record = record_of(r);
    answer
}

pub fn read_sector(stream: &[u8], out: &mut [u8], erasures: &mut [u8], report: &mut [u32]) -> u32 {
    let (s, o, e, r) = (stream.as_ptr(), out.as_mut_ptr(), erasures.as_mut_ptr(), report.as_mut_ptr());
    unsafe { chamanzil_read_sector(s, stream.len(), o, out.len(), e, erasures.len(), r, report.len()) }
}

pub fn pool(bytes: &mut [u8], erasures: &mut [u8], second_bytes: &[u8], second_erasures: &[u8]) -> u32 {
    let (b, e, s, t) = (bytes.as_mut_ptr(), erasures.as_mut_ptr(), second_bytes.as_ptr(), second_erasures.as_ptr());
    unsafe { chamanzil_pool(b, bytes.len(), e, erasures.len(), s, second_bytes.len(), t, second_erasures.len()) }
}

pub fn repair_block(block: &mut [u8], erasures: &[u8], main: &mut [u8], report: &mut [u32]) -> u32 {
    let (b, e, m, r) = (block.as_mut_ptr(), erasures.as_ptr(), main.as_mut_ptr(), report.as_mut_ptr());
    unsafe { chamanzil_repair_block(b, block.len(), e, erasures.len(), m, main.len(), r, report.len()) }
}

pub fn read_block(stream: &[u8], block: &mut [u8], erasures: &mut [u8], main: &mut [u8], report: &mut [u32]) -> u32 {
    let (s, b, e, m, r) = (stream.as_ptr(), block.as_mut_ptr(), erasures.as_mut_ptr(), main.as_mut_ptr(), report.as_mut_ptr());
    unsafe { chamanzil_read_block(s, stream.len(), b, block.len(), e, erasures.len(), m, main.len(), r, report.len()) }
}

pub fn read_capture(stream: &[u8], out: &mut [u8], stretches: &mut [u64], report: &mut [u64]) -> u32 {
    let (o, s, r) = (out.as_mut_ptr(), stretches.as_mut_ptr(), report.as_mut_ptr());
    unsafe { chamanzil_read_capture(stream.as_ptr(), stream.len(), o, out.len(), s, stretches.len(), r, report.len()) }
}
