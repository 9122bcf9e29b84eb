use crate::refusal::answer;
use crate::{raw, slices, Refusal, COLUMN, COLUMN_DATA, COLUMN_PARITY, ROW, ROW_DATA, ROW_PARITY};

/// What became of a row or a column.
#[derive(Clone, Copy, Debug, PartialEq, Eq, Hash)]
pub enum Outcome {
    /// It was a code word.
    Clean,
    /// It became the code word near it.
    Corrected,
    /// There is none near enough, or a row has more than ten marks, and it stays.
    Uncorrectable,
}

pub(crate) fn outcome(number: u32) -> Result<Outcome, Refusal> {
    match number {
        raw::CORRECTED => Ok(Outcome::Corrected),
        raw::UNCORRECTABLE => Ok(Outcome::Uncorrectable),
        other => answer(other, 0).map(|()| Outcome::Clean),
    }
}

/// What the light repair says of a row.
#[derive(Clone, Copy, Debug, PartialEq, Eq, Hash)]
pub enum LightOutcome {
    /// A code row differs in at most two bytes, and the row is that now. A code row is repaired to itself.
    Repaired,
    /// No code row is that near, and the row stays.
    Heavier,
}

pub(crate) fn light_outcome(number: u32) -> Result<LightOutcome, Refusal> {
    match number {
        raw::HEAVIER => Ok(LightOutcome::Heavier),
        other => answer(other, 0).map(|()| LightOutcome::Repaired),
    }
}

/// The answer of a call whose lengths the types fix.
pub(crate) fn stated<T>(result: Result<T, Refusal>) -> T {
    result.expect("the lengths are those stated")
}

/// The 10 parity bytes of a row (roots α⁰ to α⁹).
///
/// ```
/// assert_eq!(chamanzil::row_parity(&[0; chamanzil::ROW_DATA]), [0; 10]);
/// ```
#[must_use]
pub fn row_parity(word: &[u8; ROW_DATA]) -> [u8; ROW_PARITY] {
    let mut out = [0; ROW_PARITY];
    stated(slices::row_parity(word, &mut out));
    out
}

/// The 16 parity bytes of a column (roots α⁰ to α¹⁵).
///
/// ```
/// assert_eq!(chamanzil::column_parity(&[0; chamanzil::COLUMN_DATA]), [0; 16]);
/// ```
#[must_use]
pub fn column_parity(word: &[u8; COLUMN_DATA]) -> [u8; COLUMN_PARITY] {
    let mut out = [0; COLUMN_PARITY];
    stated(slices::column_parity(word, &mut out));
    out
}

/// The IED of an ID.
///
/// ```
/// assert_eq!(chamanzil::ied(&[0x00, 0x03, 0x00, 0x00]), [0x11, 0x12]);
/// ```
#[must_use]
pub fn ied(id: &[u8; 4]) -> [u8; 2] {
    let mut out = [0; 2];
    stated(slices::ied(id, &mut out));
    out
}

/// A row with f marks becomes the one code row that differs from it in e bytes without a mark, 2e + f at most 10, or stays. Without marks that is the code row within
/// five bytes. A row with more than ten marks stays and is past help, also where it is a code row.
///
/// ```
/// use chamanzil::{correct_row, Outcome, Refusal};
/// let (mut row, mut erasures) = ([0; 182], [0; 182]); // zeros are a code row
/// row[..5].fill(9);
/// assert_eq!(correct_row(&mut row, &erasures), Ok(Outcome::Corrected));
/// assert_eq!(row, [0; 182]);
///
/// row[..10].fill(9);
/// assert_eq!(correct_row(&mut row, &erasures), Ok(Outcome::Uncorrectable));
/// erasures[..10].fill(1);
/// assert_eq!(correct_row(&mut row, &erasures), Ok(Outcome::Corrected));
/// assert_eq!(row, [0; 182]);
/// assert_eq!(correct_row(&mut row, &erasures), Ok(Outcome::Clean));
///
/// erasures[10] = 1;
/// assert_eq!(correct_row(&mut row, &erasures), Ok(Outcome::Uncorrectable));
/// erasures[10] = 2;
/// assert_eq!(correct_row(&mut row, &erasures), Err(Refusal::Erasure));
/// ```
///
/// # Errors
/// 11, with `row` as it was.
pub fn correct_row(row: &mut [u8; ROW], erasures: &[u8; ROW]) -> Result<Outcome, Refusal> {
    slices::correct_row(row, erasures)
}

/// A column becomes the one code column within eight bytes, or stays.
///
/// ```
/// use chamanzil::{correct_column, Outcome};
/// let mut column = [0; 208];
/// column[..8].fill(9);
/// assert_eq!(correct_column(&mut column), Outcome::Corrected);
/// assert_eq!(column, [0; 208]);
/// ```
pub fn correct_column(column: &mut [u8; COLUMN]) -> Outcome {
    stated(slices::correct_column(column))
}

/// The light repair, by the formulas that a student follows with pencil and paper: a row without marks becomes the one code row within two bytes, or stays and is
/// heavier. Where it repairs, [`correct_row`] without marks gives the same row.
///
/// ```
/// use chamanzil::{correct_light_row, LightOutcome};
/// let mut row = [0; 182]; // zeros are a code row
/// row[..2].fill(9);
/// assert_eq!(correct_light_row(&mut row), LightOutcome::Repaired);
/// assert_eq!(row, [0; 182]);
/// assert_eq!(correct_light_row(&mut row), LightOutcome::Repaired);
///
/// row[..3].fill(9);
/// assert_eq!(correct_light_row(&mut row), LightOutcome::Heavier);
/// assert_eq!(row[..4], [9, 9, 9, 0]);
/// ```
pub fn correct_light_row(row: &mut [u8; ROW]) -> LightOutcome {
    stated(slices::correct_light_row(row))
}

/// The byte that a Code Word stands for where the 16 bits `following` come after it, if it is in the tables.
///
/// ```
/// // 207 and 215 in State 1 are the same word with next State 2 and 3, told apart by bits 15 and 3 of what follows.
/// assert_eq!(chamanzil::read_word(0b0000_0100_1000_1000, 0x0000), Some(207));
/// assert_eq!(chamanzil::read_word(0b0000_0100_1000_1000, 0x8000), Some(215));
/// assert_eq!(chamanzil::read_word(0xFFFF, 0x0000), None);
/// ```
#[must_use]
pub fn read_word(word: u16, following: u16) -> Option<u8> {
    u8::try_from(unsafe { raw::chamanzil_read_word(word, following) }).ok()
}

/// Whether a stream is no longer than a block's and has the runs of ZEROs that a block may have.
///
/// ```
/// let stream = chamanzil::format_block(&[0; chamanzil::MAIN], 0, 0)?;
/// assert!(chamanzil::zero_runs_hold(&stream[..]));
/// assert!(!chamanzil::zero_runs_hold(&[0xFF, 0xFF]));
/// # Ok::<(), chamanzil::Refusal>(())
/// ```
#[must_use]
pub fn zero_runs_hold(stream: &[u8]) -> bool {
    unsafe { raw::chamanzil_zero_runs_hold(stream.as_ptr(), stream.len()) == 1 }
}

/// Whether the bytes are four and a closing code, one of the four codes of SY0.
///
/// ```
/// let stream = chamanzil::format_block(&[0; chamanzil::MAIN], 0, 0)?;
/// assert!(chamanzil::closing_holds(&stream[chamanzil::BLOCK_STREAM..]));
/// assert!(!chamanzil::closing_holds(&[0x04, 0x04, 0x00, 0x11])); // SY1
/// assert!(!chamanzil::closing_holds(&stream[..]));
/// # Ok::<(), chamanzil::Refusal>(())
/// ```
#[must_use]
pub fn closing_holds(bytes: &[u8]) -> bool {
    unsafe { raw::chamanzil_closing_holds(bytes.as_ptr(), bytes.len()) == 1 }
}

/// The product of two elements of the field of 256, x⁸ + x⁴ + x³ + x² + 1.
///
/// ```
/// assert_eq!(chamanzil::product(0x80, 2), 0x1D);
/// ```
#[must_use]
pub fn product(a: u8, b: u8) -> u8 {
    unsafe { raw::chamanzil_product(a, b) }
}

/// An element to a power.
///
/// ```
/// assert_eq!(chamanzil::power(2, 8), 0x1D);
/// assert_eq!(chamanzil::power(2, 255), 1);
/// assert_eq!(chamanzil::power(2, 1 << 63), 0x85);
/// ```
#[must_use]
pub fn power(a: u8, n: u64) -> u8 {
    unsafe { raw::chamanzil_power(a, n) }
}
