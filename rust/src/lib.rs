//! The 80 mm DVD channel (ECMA-268), from main data to code bits and back: a safe layer over the proved functions of `crates/ffi`.
//!
//! `bin/library`, at the top of the repository, has to be run first: it proves the functions and builds the archive that this crate links.
//! Each function below it is proved to answer and to write what its contract says, never to do anything undefined, and to return.
//!
//! ```
//! use chamanzil::{format_block, read_block, MAIN};
//! let main = [7; MAIN];
//! let mut stream = format_block(&main, 0x03_0000, 0x00)?;
//! stream[20_000..22_000].fill(0); // a scratch
//! let read = read_block(&stream)?;
//! assert_eq!(*read.main, main);
//! assert_eq!(read.first, 0x03_0000);
//! # Ok::<(), chamanzil::Refusal>(())
//! ```
//!
//! What the sector reader knows goes on to the repair: it marks each byte whose Code Word is in no table (`erasures`: 1 for such a byte, 0 for any other). With f
//! marked bytes a row is repaired while 2e + f is at most 10, where e counts its wrong bytes without a mark: ten marked bytes come back, and without marks five.
//! Two readings of one block, from two drives, go into one by [`pool`] before the repair.
//!
//! Blocks that follow on are a run, which a [`Writer`] writes: 77,376 bytes a block, and the closing code after the last. Block k is read from the 77,380 bytes at
//! 77,376 k: its sectors and the four bytes after them. Sector by sector, [`Writer::trial`] tells the DSV after a sector before it is written, and hands out the
//! [`Trial`] that takes it.
//!
//! A capture from a drive begins in mid frame, and a slipped clock adds or drops bits: [`read_capture`] finds the frames of a stream without a known start by their
//! SYNC Codes.
mod capture;
#[doc(hidden)]
pub mod raw;
mod refusal;
pub mod slices;
mod words;
mod writer;

use std::fmt;

pub use capture::{read_capture, Captured, Stretch};
pub use refusal::Refusal;
pub use words::{
    closing_holds, column_parity, correct_column, correct_light_row, correct_row, ied, power,
    product, read_word, row_parity, zero_runs_hold, LightOutcome, Outcome,
};
pub use writer::{Record, Trial, Writer};

/// Main data bytes of a block: 16 sectors of 2,048.
pub const MAIN: usize = 32_768;
/// Main data bytes of a sector.
pub const SECTOR_MAIN: usize = 2_048;
/// Bytes of an ECC Block in recording order: 208 rows of 182.
pub const BLOCK: usize = 37_856;
/// Bytes of a sector of a block, before the channel: 13 rows.
pub const SECTOR: usize = 2_366;
/// Bytes of a Sync Frame, before the channel: half a row.
pub const FRAME: usize = 91;
/// Bytes of a Sync Frame of a stream.
pub const FRAME_STREAM: usize = 186;
/// Bytes of a sector of a stream: 26 Sync Frames of 186.
pub const SECTOR_STREAM: usize = 4_836;
/// Bytes that the sector reader takes: a sector of a stream and the two bytes after it.
pub const SECTOR_READ: usize = 4_838;
/// Bytes of the closing code.
pub const CLOSING: usize = 4;
/// Bytes of a block in a run's stream: 16 sectors.
pub const BLOCK_STREAM: usize = 77_376;
/// Bytes that a block is read from: 16 sectors and the four bytes after them, the closing code or the next block's SYNC Code.
pub const STREAM: usize = 77_380;
/// The most sectors of a run.
pub const RUN_SECTORS: u32 = 16_777_216;
/// Bytes of a row without its parity.
pub const ROW_DATA: usize = 172;
/// Bytes of a row's parity.
pub const ROW_PARITY: usize = 10;
/// Bytes of a row with its parity.
pub const ROW: usize = 182;
/// Bytes of a column without its parity.
pub const COLUMN_DATA: usize = 192;
/// Bytes of a column's parity.
pub const COLUMN_PARITY: usize = 16;
/// Bytes of a column with its parity.
pub const COLUMN: usize = 208;
/// Numbers in a report of [`slices::read_sector`].
pub const SECTOR_REPORT: usize = 2;
/// Numbers in a report of [`slices::repair_block`].
pub const REPAIR_REPORT: usize = 6;
/// Numbers in a report of [`slices::read_block`].
pub const BLOCK_REPORT: usize = 8;
/// The most bytes of a capture.
pub const CAPTURE: u64 = 1_099_511_627_776;
/// Numbers in a report of [`slices::read_capture`].
pub const CAPTURE_REPORT: usize = 2;

/// A buffer of zeros on the heap.
#[allow(clippy::unnecessary_box_returns)]
fn room<const N: usize>() -> Box<[u8; N]> {
    vec![0; N]
        .into_boxed_slice()
        .try_into()
        .expect("the length is N")
}

/// The block maker (clauses 16 to 19): main data, the number of the first sector and the Sector Information byte to a block in recording order. `previous` is the
/// first number of the block before, which this one has to follow, or none where a run begins.
///
/// ```
/// use chamanzil::{encode_block, Refusal, MAIN};
/// let block = encode_block(&[0; MAIN], None, 0x03_0000, 0x00)?;
/// assert_eq!(block[..6], [0x00, 0x03, 0x00, 0x00, 0x11, 0x12]); // ID and IED of the first frame
/// assert_eq!(encode_block(&[0; MAIN], Some(0x02_FFF0), 0x03_0000, 0x00)?, block);
/// assert_eq!(encode_block(&[0; MAIN], Some(0x03_0000), 0x03_0000, 0x00), Err(Refusal::Sequence));
/// assert_eq!(encode_block(&[0; MAIN], None, 0, 0x02), Err(Refusal::Information));
/// # Ok::<(), Refusal>(())
/// ```
///
/// # Errors
/// 2, 3 or 10.
pub fn encode_block(
    main: &[u8; MAIN],
    previous: Option<u32>,
    first: u32,
    info: u8,
) -> Result<Box<[u8; BLOCK]>, Refusal> {
    let mut out = room();
    slices::encode_block(main, previous, first, info, &mut out[..])?;
    Ok(out)
}

/// The formatter: the run of one block, by the block maker and the writer from a new record. Sixteen sectors and the closing code.
///
/// ```
/// use chamanzil::{format_block, Refusal, MAIN};
/// assert_eq!(format_block(&[0; MAIN], 0x03_0000, 0x00)?.len(), 77_380);
/// # Ok::<(), Refusal>(())
/// ```
///
/// # Errors
/// 2 or 3.
pub fn format_block(main: &[u8; MAIN], first: u32, info: u8) -> Result<Box<[u8; STREAM]>, Refusal> {
    let mut out = room();
    slices::format_block(main, first, info, &mut out[..])?;
    Ok(out)
}

/// What the sector reader reads.
#[derive(Clone, Debug, PartialEq, Eq)]
pub struct SectorRead {
    /// The bytes of the sector, 0 for an unknown word.
    pub bytes: Box<[u8; SECTOR]>,
    /// Their marks, 1 for an unknown word and 0 for any other.
    pub erasures: Box<[u8; SECTOR]>,
    /// Words that are in no table.
    pub unknown: u32,
    /// SYNC places that hold none of the codes due there.
    pub sync: u32,
}

/// The sector reader: a sector of a stream and the two bytes after it.
///
/// ```
/// use chamanzil::{encode_block, format_block, read_sector, MAIN, SECTOR, SECTOR_READ};
/// let mut stream = format_block(&[0; MAIN], 0, 0)?;
/// let read = read_sector(stream[..SECTOR_READ].try_into().unwrap());
/// assert_eq!(read.bytes[..], encode_block(&[0; MAIN], None, 0, 0)?[..SECTOR]);
/// assert_eq!((*read.erasures, read.unknown, read.sync), ([0; SECTOR], 0, 0));
///
/// stream[4..24].fill(0); // the first ten words, after the SYNC Code; ZEROs are no word
/// let read = read_sector(stream[..SECTOR_READ].try_into().unwrap());
/// assert_eq!((&read.bytes[..10], &read.erasures[..11]), (&[0; 10][..], &[1, 1, 1, 1, 1, 1, 1, 1, 1, 1, 0][..]));
/// assert_eq!(read.unknown, 10);
/// # Ok::<(), chamanzil::Refusal>(())
/// ```
#[must_use]
pub fn read_sector(stream: &[u8; SECTOR_READ]) -> SectorRead {
    let mut bytes = room();
    let mut erasures = room();
    let mut report = [0; SECTOR_REPORT];
    words::stated(slices::read_sector(
        stream,
        &mut bytes[..],
        &mut erasures[..],
        &mut report,
    ));
    let [unknown, sync] = report;
    SectorRead {
        bytes,
        erasures,
        unknown,
        sync,
    }
}

/// Two readings of one block, from two drives, pooled before the repair: the result replaces the first, and the second stays. Where both are unmarked and equal that
/// byte stands, and where one is marked the other's; elsewhere the byte is 0 and marked. Which of the two is the first makes no difference to the result.
///
/// A row in which every place is right and unmarked in at least one reading, and in which the two together have at most ten unmarked wrong bytes, comes back whole
/// from the row repair. While at most eight of the 208 rows are not like that, the repairer hands out the main data:
///
/// ```
/// use chamanzil::{encode_block, pool, repair_block, Refusal, BLOCK, MAIN, ROW};
/// let made = encode_block(&[1; MAIN], None, 16, 0)?;
/// let (mut bytes, mut erasures) = (made.clone(), [0; BLOCK]);
/// let (mut second_bytes, mut second_erasures) = (made.clone(), [0; BLOCK]);
/// for row in 0..9 {
///     // six wrong bytes in the first reading; in the second, at other places, eleven unknown words
///     bytes[ROW * row..][..6].iter_mut().for_each(|byte| *byte ^= 255);
///     second_bytes[ROW * row + 6..][..11].fill(0);
///     second_erasures[ROW * row + 6..][..11].fill(1);
/// }
/// assert!(repair_block(&mut bytes.clone(), &erasures).is_err());
/// assert!(repair_block(&mut second_bytes.clone(), &second_erasures).is_err());
///
/// pool(&mut bytes, &mut erasures, &second_bytes, &second_erasures)?;
/// let repaired = repair_block(&mut bytes, &erasures)?;
/// assert_eq!((*repaired.main, repaired.rows.changed), ([1; MAIN], 9));
/// assert_eq!(bytes, made);
///
/// second_erasures[BLOCK - 1] = 2;
/// let refused = pool(&mut bytes, &mut erasures, &second_bytes, &second_erasures);
/// assert_eq!((refused, bytes), (Err(Refusal::Erasure), made));
/// # Ok::<(), Refusal>(())
/// ```
///
/// A clean reading pooled with a very bad one can be refused where the clean one alone is read: a place in which they differ is marked, whichever is right. So each
/// is repaired alone first, on a copy, and both together where that fails.
///
/// # Errors
/// 11, with everything as it was.
pub fn pool(
    bytes: &mut [u8; BLOCK],
    erasures: &mut [u8; BLOCK],
    second_bytes: &[u8; BLOCK],
    second_erasures: &[u8; BLOCK],
) -> Result<(), Refusal> {
    slices::pool(bytes, erasures, second_bytes, second_erasures)
}

/// How many rows or columns were no code words.
#[derive(Clone, Copy, Debug, Default, PartialEq, Eq, Hash)]
pub struct Tally {
    /// Became the code word near them.
    pub changed: u32,
    /// Have no code word near enough.
    pub past_help: u32,
}

/// What the block repairer hands out.
#[derive(Clone, Debug, PartialEq, Eq)]
pub struct Repaired {
    /// The main data.
    pub main: Box<[u8; MAIN]>,
    /// The number of the first sector.
    pub first: u32,
    /// The rows as they came.
    pub rows: Tally,
    /// The columns as the rows' repair leaves them.
    pub columns: Tally,
}

/// The block repairer. `block` is repaired in place, also where a frame is refused. `erasures` are its marks, as the sector reader gives them, or zeros.
///
/// ```
/// use chamanzil::{encode_block, repair_block, Refusal, Tally, BLOCK, MAIN};
/// let made = encode_block(&[1; MAIN], None, 16, 0)?;
/// let (mut block, mut erasures) = (made.clone(), [0; BLOCK]);
/// block[..10].fill(255);
/// erasures[..10].fill(1);
/// let repaired = repair_block(&mut block, &erasures)?;
/// assert_eq!((*repaired.main, repaired.first), ([1; MAIN], 16));
/// assert_eq!((repaired.rows, repaired.columns), (Tally { changed: 1, past_help: 0 }, Tally::default()));
/// assert_eq!(block, made);
///
/// block[..10].fill(255); // without marks the row is past help, and the columns mend it
/// let repaired = repair_block(&mut block, &[0; BLOCK])?;
/// assert_eq!((repaired.rows.past_help, repaired.columns.changed), (1, 10));
///
/// erasures[BLOCK - 1] = 2;
/// assert_eq!(repair_block(&mut block, &erasures), Err(Refusal::Erasure));
/// # Ok::<(), Refusal>(())
/// ```
///
/// A block that is refused with its marks can be one that is read without, since a row of more than ten unknown words may be nearly right all the same. Who wants
/// such a block tries again with zeros, on the block as it was read; EDC judges both.
///
/// # Errors
/// 11, with `block` as it was; 4, 5 or 6, with the first frame that fails.
pub fn repair_block(block: &mut [u8; BLOCK], erasures: &[u8; BLOCK]) -> Result<Repaired, Refusal> {
    let mut main = room();
    let mut report = [0; REPAIR_REPORT];
    slices::repair_block(block, erasures, &mut main[..], &mut report)?;
    let [first, changed, past_help, columns_changed, columns_past_help, _] = report;
    Ok(Repaired {
        main,
        first,
        rows: Tally { changed, past_help },
        columns: Tally {
            changed: columns_changed,
            past_help: columns_past_help,
        },
    })
}

/// What the whole-block reader hands out. It prints as the bench sheet's line.
#[derive(Clone, Debug, PartialEq, Eq)]
pub struct BlockRead {
    /// The main data.
    pub main: Box<[u8; MAIN]>,
    /// The number of the first sector.
    pub first: u32,
    /// The rows as they came.
    pub rows: Tally,
    /// The columns as the rows' repair leaves them.
    pub columns: Tally,
    /// Words that are in no table, of all sectors.
    pub unknown: u32,
    /// SYNC places that hold none of the codes due there, of all sectors.
    pub sync: u32,
    /// The sectors' marks, 1 for an unknown word and 0 for any other.
    pub erasures: Box<[u8; BLOCK]>,
}

impl fmt::Display for BlockRead {
    fn fmt(&self, f: &mut fmt::Formatter<'_>) -> fmt::Result {
        write!(
            f,
            "block {:06X} rows {} {} columns {} {} unknown {} sync {}",
            self.first,
            self.rows.changed,
            self.rows.past_help,
            self.columns.changed,
            self.columns.past_help,
            self.unknown,
            self.sync
        )
    }
}

/// The whole-block reader: sixteen sectors, then the repairer with their marks. The four bytes after the sectors, by which the last word is judged, are the closing
/// code or the next block's SYNC Code.
///
/// ```
/// use chamanzil::{format_block, read_block, MAIN};
/// let mut stream = format_block(&[0; MAIN], 0x03_0000, 0)?;
/// let read = read_block(&stream)?;
/// assert_eq!(read.to_string(), "block 030000 rows 0 0 columns 0 0 unknown 0 sync 0");
///
/// stream[376..396].fill(0); // ten words of row 1, which comes back from the row repair by their marks
/// let read = read_block(&stream)?;
/// assert_eq!(read.to_string(), "block 030000 rows 1 0 columns 0 0 unknown 10 sync 0");
/// assert_eq!((*read.main, &read.erasures[182..192]), ([0; MAIN], &[1; 10][..]));
/// # Ok::<(), chamanzil::Refusal>(())
/// ```
///
/// # Errors
/// 4, 5 or 6, with the first frame that fails.
pub fn read_block(stream: &[u8; STREAM]) -> Result<BlockRead, Refusal> {
    let mut block = room::<BLOCK>();
    let mut erasures = room();
    let mut main = room();
    let mut report = [0; BLOCK_REPORT];
    slices::read_block(
        stream,
        &mut block[..],
        &mut erasures[..],
        &mut main[..],
        &mut report,
    )?;
    let [first, changed, past_help, columns_changed, columns_past_help, unknown, sync, _] = report;
    Ok(BlockRead {
        main,
        first,
        rows: Tally { changed, past_help },
        columns: Tally {
            changed: columns_changed,
            past_help: columns_past_help,
        },
        unknown,
        sync,
        erasures,
    })
}
