//! The C boundary, declared as `crates/ffi/src` has it: a slice is a pointer and a length. The tests and the bench of the repository use it too, to see every
//! number that a call leaves; programs use the safe functions.
use crate::Record;

/// What `chamanzil_correct_row` and `chamanzil_correct_column` answer of a word that was no code word, above every refusal: it became the code word near it,
pub const CORRECTED: u32 = 256;
/// or there is none near enough, and it stays.
pub const UNCORRECTABLE: u32 = 257;
/// What `chamanzil_correct_light_row` answers of a row that no code row is within two bytes of: it stays.
pub const HEAVIER: u32 = 258;

extern "C" {
    pub fn chamanzil_product(a: u8, b: u8) -> u8;
    pub fn chamanzil_power(a: u8, n: u64) -> u8;
    pub fn chamanzil_ied(id: *const u8, id_len: usize, out: *mut u8, out_len: usize) -> u32;
    pub fn chamanzil_row_parity(
        word: *const u8,
        word_len: usize,
        out: *mut u8,
        out_len: usize,
    ) -> u32;
    pub fn chamanzil_column_parity(
        word: *const u8,
        word_len: usize,
        out: *mut u8,
        out_len: usize,
    ) -> u32;
    pub fn chamanzil_correct_row(
        row: *mut u8,
        row_len: usize,
        erasures: *const u8,
        erasures_len: usize,
    ) -> u32;
    pub fn chamanzil_correct_column(column: *mut u8, column_len: usize) -> u32;
    pub fn chamanzil_correct_light_row(row: *mut u8, row_len: usize) -> u32;
    pub fn chamanzil_read_word(word: u16, following: u16) -> u32;
    pub fn chamanzil_zero_runs_hold(stream: *const u8, stream_len: usize) -> u32;
    pub fn chamanzil_closing_holds(bytes: *const u8, bytes_len: usize) -> u32;
    pub fn chamanzil_encode_block(
        main: *const u8,
        main_len: usize,
        follows: bool,
        previous: u32,
        first: u32,
        info: u8,
        out: *mut u8,
        out_len: usize,
    ) -> u32;
    pub fn chamanzil_format_block(
        main: *const u8,
        main_len: usize,
        first: u32,
        info: u8,
        out: *mut u8,
        out_len: usize,
    ) -> u32;
    pub fn chamanzil_new_record(kept: *mut Record);
    pub fn chamanzil_trial(
        kept: *mut Record,
        bytes: *const u8,
        bytes_len: usize,
        out: *const u8,
        out_len: usize,
    ) -> u32;
    pub fn chamanzil_take(
        kept: *mut Record,
        bytes: *const u8,
        bytes_len: usize,
        out: *mut u8,
        out_len: usize,
    ) -> u32;
    pub fn chamanzil_write_sectors(
        kept: *mut Record,
        block: *const u8,
        block_len: usize,
        out: *mut u8,
        out_len: usize,
    ) -> u32;
    pub fn chamanzil_write_block(
        kept: *mut Record,
        follows: bool,
        previous: u32,
        main: *const u8,
        main_len: usize,
        first: u32,
        info: u8,
        out: *mut u8,
        out_len: usize,
    ) -> u32;
    pub fn chamanzil_close(kept: *mut Record, out: *mut u8, out_len: usize) -> u32;
    pub fn chamanzil_read_sector(
        stream: *const u8,
        stream_len: usize,
        out: *mut u8,
        out_len: usize,
        erasures: *mut u8,
        erasures_len: usize,
        report: *mut u32,
        report_len: usize,
    ) -> u32;
    pub fn chamanzil_pool(
        bytes: *mut u8,
        bytes_len: usize,
        erasures: *mut u8,
        erasures_len: usize,
        second_bytes: *const u8,
        second_bytes_len: usize,
        second_erasures: *const u8,
        second_erasures_len: usize,
    ) -> u32;
    pub fn chamanzil_repair_block(
        block: *mut u8,
        block_len: usize,
        erasures: *const u8,
        erasures_len: usize,
        main: *mut u8,
        main_len: usize,
        report: *mut u32,
        report_len: usize,
    ) -> u32;
    pub fn chamanzil_read_block(
        stream: *const u8,
        stream_len: usize,
        block: *mut u8,
        block_len: usize,
        erasures: *mut u8,
        erasures_len: usize,
        main: *mut u8,
        main_len: usize,
        report: *mut u32,
        report_len: usize,
    ) -> u32;
    pub fn chamanzil_read_capture(
        stream: *const u8,
        stream_len: usize,
        out: *mut u8,
        out_len: usize,
        stretches: *mut u64,
        stretches_len: usize,
        report: *mut u64,
        report_len: usize,
    ) -> u32;
}
