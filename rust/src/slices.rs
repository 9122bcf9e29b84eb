//! The same calls on slices: a slice of another length than stated is refused with number 1, and everything is left as it was.
//!
//! ```
//! use chamanzil::{slices, Refusal, BLOCK, MAIN};
//! let (main, mut block) = (vec![0; MAIN], vec![165; BLOCK]);
//! assert_eq!(slices::encode_block(&main[1..], None, 0, 0, &mut block), Err(Refusal::Length));
//! assert_eq!(block, vec![165; BLOCK]);
//! assert_eq!(slices::encode_block(&main, None, 0, 0, &mut block), Ok(()));
//! ```
use crate::raw;
use crate::refusal::answer;
use crate::{Record, Refusal};

/// Whether a block comes before, and its first number, which counts only then.
fn block_before(previous: Option<u32>) -> (bool, u32) {
    (previous.is_some(), previous.unwrap_or(0))
}

/// The block maker: 32,768 main data bytes to a block of 37,856. `previous` is the first number of the block before, none where a run begins.
///
/// ```
/// use chamanzil::{slices, Refusal, BLOCK, MAIN};
/// let (main, mut block) = (vec![0; MAIN], vec![165; BLOCK]);
/// assert_eq!(slices::encode_block(&main, Some(0), 32, 0, &mut block), Err(Refusal::Sequence));
/// assert_eq!(block, vec![165; BLOCK]);
/// assert_eq!(slices::encode_block(&main, Some(0), 16, 0, &mut block), Ok(()));
/// ```
///
/// # Errors
/// 1, 2, 3 or 10, with `out` as it was.
pub fn encode_block(
    main: &[u8],
    previous: Option<u32>,
    first: u32,
    info: u8,
    out: &mut [u8],
) -> Result<(), Refusal> {
    let (follows, before) = block_before(previous);
    let number = unsafe {
        raw::chamanzil_encode_block(
            main.as_ptr(),
            main.len(),
            follows,
            before,
            first,
            info,
            out.as_mut_ptr(),
            out.len(),
        )
    };
    answer(number, 0)
}

/// The formatter: 32,768 main data bytes to a stream of 77,380, the run of one block.
///
/// # Errors
/// 1, 2 or 3, with `out` as it was.
pub fn format_block(main: &[u8], first: u32, info: u8, out: &mut [u8]) -> Result<(), Refusal> {
    let (to, size) = (out.as_mut_ptr(), out.len());
    let number =
        unsafe { raw::chamanzil_format_block(main.as_ptr(), main.len(), first, info, to, size) };
    answer(number, 0)
}

/// The trial of a sector of 2,366 bytes: the DSV after it, which `record` is marked with; the rest of it stays. `out` is the buffer that the take would fill, 4,836
/// bytes, of which only the length is looked at.
///
/// ```
/// use chamanzil::{slices, Record, Refusal, SECTOR, SECTOR_STREAM};
/// let (bytes, mut out, mut record) = ([7; SECTOR], [0; SECTOR_STREAM], Record::new());
/// assert_eq!(slices::take(&mut record, &bytes, &mut out), Err(Refusal::NotTried));
/// let dsv = slices::trial(&mut record, &bytes, &out)?;
/// assert_eq!((record.marked, record.mark, record.sectors), (true, dsv, 0));
/// slices::take(&mut record, &bytes, &mut out)?;
/// assert_eq!((record.marked, record.dsv, record.sectors), (false, dsv, 1));
/// # Ok::<(), Refusal>(())
/// ```
///
/// # Errors
/// 1, 9 or 7, with `record` as it was.
pub fn trial(record: &mut Record, bytes: &[u8], out: &[u8]) -> Result<i64, Refusal> {
    let (to, size) = (out.as_ptr(), out.len());
    let number = unsafe { raw::chamanzil_trial(record, bytes.as_ptr(), bytes.len(), to, size) };
    answer(number, 0)?;
    Ok(record.mark)
}

/// The take of a sector that was tried: 2,366 bytes to 4,836. `record` becomes the next one, without a mark.
///
/// # Errors
/// 1, 9, 7, 12 or 13, with `record` and `out` as they were.
pub fn take(record: &mut Record, bytes: &[u8], out: &mut [u8]) -> Result<(), Refusal> {
    let (to, size) = (out.as_mut_ptr(), out.len());
    let number = unsafe { raw::chamanzil_take(record, bytes.as_ptr(), bytes.len(), to, size) };
    answer(number, 0)
}

/// The sixteen sectors of a block that is made, without trials: 37,856 bytes to 77,376. `record` becomes the one after them, without a mark.
///
/// # Errors
/// 1, 9 or 7, with `record` and `out` as they were.
pub fn write_sectors(record: &mut Record, block: &[u8], out: &mut [u8]) -> Result<(), Refusal> {
    let (to, size) = (out.as_mut_ptr(), out.len());
    let number =
        unsafe { raw::chamanzil_write_sectors(record, block.as_ptr(), block.len(), to, size) };
    answer(number, 0)
}

/// A whole block of a run: the block maker, then the writer's sixteen sectors. 32,768 main data bytes to 77,376. `previous` is the first number of the block before,
/// none where the run begins. `record` becomes the one after the sixteenth of these sectors, without a mark.
///
/// ```
/// use chamanzil::{read_block, slices, Record, Refusal, BLOCK_STREAM, CLOSING, MAIN, STREAM};
/// let (main, mut record) = (vec![7; MAIN], Record::new());
/// let mut stream = vec![0; 2 * BLOCK_STREAM + CLOSING];
/// let (one, rest) = stream.split_at_mut(BLOCK_STREAM);
/// let (two, closing) = rest.split_at_mut(BLOCK_STREAM);
/// slices::write_block(&mut record, None, &main, 0x03_0000, 0, one)?;
/// let refused = slices::write_block(&mut record, Some(0x03_0000), &main, 0x03_0000, 0, two);
/// assert_eq!((refused, record.sectors), (Err(Refusal::Sequence), 16));
/// slices::write_block(&mut record, Some(0x03_0000), &main, 0x03_0010, 0, two)?;
/// slices::close(&mut record, closing)?;
///
/// for (k, first) in [0x03_0000, 0x03_0010].into_iter().enumerate() {
///     let read = read_block(stream[k * BLOCK_STREAM..][..STREAM].try_into().unwrap())?;
///     assert_eq!((&read.main[..], read.first), (&main[..], first));
/// }
/// # Ok::<(), Refusal>(())
/// ```
///
/// # Errors
/// 1, 2, 3, 10, 9 or 7, with `record` and `out` as they were.
pub fn write_block(
    record: &mut Record,
    previous: Option<u32>,
    main: &[u8],
    first: u32,
    info: u8,
    out: &mut [u8],
) -> Result<(), Refusal> {
    let (follows, before) = block_before(previous);
    let number = unsafe {
        raw::chamanzil_write_block(
            record,
            follows,
            before,
            main.as_ptr(),
            main.len(),
            first,
            info,
            out.as_mut_ptr(),
            out.len(),
        )
    };
    answer(number, 0)
}

/// The closing code after the last block of a run, 4 bytes: the SY0 that leaves the lower absolute DSV, as [`Writer::close`](crate::Writer::close) has it. `record`
/// becomes the next one, without a mark.
///
/// # Errors
/// 1, 9, 7 or 8, with `record` and `out` as they were.
pub fn close(record: &mut Record, out: &mut [u8]) -> Result<(), Refusal> {
    let number = unsafe { raw::chamanzil_close(record, out.as_mut_ptr(), out.len()) };
    answer(number, 0)
}

/// The sector reader: 4,838 bytes of stream to 2,366, and to as many marks, 1 for an unknown word and 0 for any other. `report` has two numbers: unknown words, and
/// SYNC places that hold no code due there.
///
/// # Errors
/// 1, with `out`, `erasures` and `report` as they were.
pub fn read_sector(
    stream: &[u8],
    out: &mut [u8],
    erasures: &mut [u8],
    report: &mut [u32],
) -> Result<(), Refusal> {
    let (o, e, r) = (out.as_mut_ptr(), erasures.as_mut_ptr(), report.as_mut_ptr());
    let number = unsafe {
        raw::chamanzil_read_sector(
            stream.as_ptr(),
            stream.len(),
            o,
            out.len(),
            e,
            erasures.len(),
            r,
            report.len(),
        )
    };
    answer(number, 0)
}

/// Two readings of one block pooled before its repair, 37,856 bytes with as many marks each: the result replaces the first, and the second stays. Where both are
/// unmarked and equal that byte stands, and where one is marked the other's; elsewhere the byte is 0 and marked.
///
/// ```
/// use chamanzil::{slices, Refusal, BLOCK};
/// let (mut bytes, mut erasures) = (vec![7; BLOCK], vec![0; BLOCK]);
/// let (mut second_bytes, mut second_erasures) = (vec![7; BLOCK], vec![0; BLOCK]);
/// bytes[1] = 9; // another byte than the second has
/// erasures[2] = 1;
/// second_erasures[3] = 2;
/// let was = (bytes.clone(), erasures.clone());
/// let short = slices::pool(&mut bytes, &mut erasures, &second_bytes[1..], &second_erasures);
/// assert_eq!(short, Err(Refusal::Length));
/// let refused = slices::pool(&mut bytes, &mut erasures, &second_bytes, &second_erasures);
/// assert_eq!((refused, (&bytes, &erasures)), (Err(Refusal::Erasure), (&was.0, &was.1)));
///
/// second_erasures[3] = 1;
/// second_bytes[3] = 0;
/// slices::pool(&mut bytes, &mut erasures, &second_bytes, &second_erasures)?;
/// assert_eq!((&bytes[..4], &erasures[..4]), (&[7, 0, 7, 7][..], &[0, 1, 0, 0][..]));
/// # Ok::<(), Refusal>(())
/// ```
///
/// # Errors
/// 1 or 11, with everything as it was.
pub fn pool(
    bytes: &mut [u8],
    erasures: &mut [u8],
    second_bytes: &[u8],
    second_erasures: &[u8],
) -> Result<(), Refusal> {
    let (b, e) = (bytes.as_mut_ptr(), erasures.as_mut_ptr());
    let number = unsafe {
        raw::chamanzil_pool(
            b,
            bytes.len(),
            e,
            erasures.len(),
            second_bytes.as_ptr(),
            second_bytes.len(),
            second_erasures.as_ptr(),
            second_erasures.len(),
        )
    };
    answer(number, 0)
}

/// The block repairer: a block of 37,856 bytes with as many marks, repaired in place, to 32,768 main data bytes. `report` has six numbers: the first number, rows
/// changed and past help, columns changed and past help, and the frame refused.
///
/// ```
/// use chamanzil::{slices, Refusal, BLOCK, MAIN, REPAIR_REPORT};
/// let (main, mut block, mut erasures) = (vec![1; MAIN], vec![0; BLOCK], vec![0; BLOCK]);
/// slices::encode_block(&main, None, 16, 0, &mut block)?;
/// block[..10].fill(255);
/// erasures[..10].fill(1);
/// erasures[10] = 2;
/// let (damaged, mut out, mut report) = (block.clone(), vec![165; MAIN], [7; REPAIR_REPORT]);
/// let refused = slices::repair_block(&mut block, &erasures, &mut out, &mut report);
/// assert_eq!(refused, Err(Refusal::Erasure));
/// assert_eq!((&block, &out, report), (&damaged, &vec![165; MAIN], [7; REPAIR_REPORT]));
///
/// erasures[10] = 0;
/// slices::repair_block(&mut block, &erasures, &mut out, &mut report)?;
/// assert_eq!((out, report), (main, [16, 1, 0, 0, 0, 0]));
/// # Ok::<(), Refusal>(())
/// ```
///
/// # Errors
/// 1 or 11, with everything as it was; 4, 5 or 6, with `main` as it was and `block` repaired.
pub fn repair_block(
    block: &mut [u8],
    erasures: &[u8],
    main: &mut [u8],
    report: &mut [u32],
) -> Result<(), Refusal> {
    let (b, m, r) = (block.as_mut_ptr(), main.as_mut_ptr(), report.as_mut_ptr());
    let number = unsafe {
        raw::chamanzil_repair_block(
            b,
            block.len(),
            erasures.as_ptr(),
            erasures.len(),
            m,
            main.len(),
            r,
            report.len(),
        )
    };
    answer(number, report.last().copied().unwrap_or(0))
}

/// The whole-block reader: 77,380 bytes of stream, the last four a closing code or the next block's SYNC Code, to a block of 37,856, as the repairer leaves it, the
/// sectors' marks, as many, and 32,768 main data bytes. `report` has eight numbers: the repairer's, with the sums of the two sector tallies before the frame.
///
/// # Errors
/// 1, with everything as it was; 4, 5 or 6, with `main` as it was, `erasures` the marks and `block` read and repaired.
pub fn read_block(
    stream: &[u8],
    block: &mut [u8],
    erasures: &mut [u8],
    main: &mut [u8],
    report: &mut [u32],
) -> Result<(), Refusal> {
    let (b, e) = (block.as_mut_ptr(), erasures.as_mut_ptr());
    let (m, r) = (main.as_mut_ptr(), report.as_mut_ptr());
    let number = unsafe {
        raw::chamanzil_read_block(
            stream.as_ptr(),
            stream.len(),
            b,
            block.len(),
            e,
            erasures.len(),
            m,
            main.len(),
            r,
            report.len(),
        )
    };
    answer(number, report.last().copied().unwrap_or(0))
}

/// The capture reader: a capture of at most 1,099,511,627,776 bytes to 91 bytes for each frame taken, in order. `out` has 91 bytes for every whole 186 of the
/// capture, `stretches` two numbers an entry, a start and a length in bits (a number left over at the end is no entry), `report` two numbers: the counts of frames
/// and of stretches. What is past the last frame's bytes and the last stretch stays as it was. The order of the stretches is not stated.
///
/// ```
/// use chamanzil::{slices, Refusal, CAPTURE_REPORT, FRAME, FRAME_STREAM, MAIN, STREAM};
/// let mut stream = vec![0; STREAM];
/// slices::format_block(&vec![7; MAIN], 0, 0, &mut stream)?;
/// let capture = &stream[100..700]; // from mid frame, two frames, to mid frame
/// let mut out = vec![165; FRAME * (capture.len() / FRAME_STREAM)];
/// let (mut stretches, mut report) = ([9; 5], [9; CAPTURE_REPORT]);
/// let few = slices::read_capture(capture, &mut out, &mut stretches[..3], &mut report);
/// assert_eq!((few, stretches, report), (Err(Refusal::Stretches), [9; 5], [9; CAPTURE_REPORT]));
/// let short = slices::read_capture(capture, &mut out[1..], &mut stretches, &mut report);
/// assert_eq!((short, &out), (Err(Refusal::Length), &vec![165; 273]));
///
/// slices::read_capture(capture, &mut out, &mut stretches, &mut report)?;
/// assert_eq!((report, &out[182..]), ([2, 2], &[165; 91][..]));
/// let mut entries: Vec<_> = stretches[..4].chunks(2).collect();
/// entries.sort();
/// assert_eq!((entries, stretches[4]), (vec![&[0, 688][..], &[3_664, 1_136]], 9));
/// # Ok::<(), Refusal>(())
/// ```
///
/// # Errors
/// 1 or 14, with everything as it was.
pub fn read_capture(
    stream: &[u8],
    out: &mut [u8],
    stretches: &mut [u64],
    report: &mut [u64],
) -> Result<(), Refusal> {
    let (o, s, r) = (
        out.as_mut_ptr(),
        stretches.as_mut_ptr(),
        report.as_mut_ptr(),
    );
    let number = unsafe {
        raw::chamanzil_read_capture(
            stream.as_ptr(),
            stream.len(),
            o,
            out.len(),
            s,
            stretches.len(),
            r,
            report.len(),
        )
    };
    answer(number, 0)
}

/// The 10 parity bytes of a row of 172.
///
/// # Errors
/// 1, with `out` as it was.
pub fn row_parity(word: &[u8], out: &mut [u8]) -> Result<(), Refusal> {
    let (to, size) = (out.as_mut_ptr(), out.len());
    answer(
        unsafe { raw::chamanzil_row_parity(word.as_ptr(), word.len(), to, size) },
        0,
    )
}

/// The 16 parity bytes of a column of 192.
///
/// # Errors
/// 1, with `out` as it was.
pub fn column_parity(word: &[u8], out: &mut [u8]) -> Result<(), Refusal> {
    let (to, size) = (out.as_mut_ptr(), out.len());
    answer(
        unsafe { raw::chamanzil_column_parity(word.as_ptr(), word.len(), to, size) },
        0,
    )
}

/// The 2 bytes of IED of an ID of 4.
///
/// # Errors
/// 1, with `out` as it was.
pub fn ied(id: &[u8], out: &mut [u8]) -> Result<(), Refusal> {
    let (to, size) = (out.as_mut_ptr(), out.len());
    answer(
        unsafe { raw::chamanzil_ied(id.as_ptr(), id.len(), to, size) },
        0,
    )
}

/// The repair of a row of 182 bytes with as many marks, in place.
///
/// # Errors
/// 1 or 11, with `row` as it was.
pub fn correct_row(row: &mut [u8], erasures: &[u8]) -> Result<crate::Outcome, Refusal> {
    let (marks, size) = (erasures.as_ptr(), erasures.len());
    crate::words::outcome(unsafe {
        raw::chamanzil_correct_row(row.as_mut_ptr(), row.len(), marks, size)
    })
}

/// The repair of a column of 208 bytes, in place.
///
/// # Errors
/// 1, with `column` as it was.
pub fn correct_column(column: &mut [u8]) -> Result<crate::Outcome, Refusal> {
    crate::words::outcome(unsafe {
        raw::chamanzil_correct_column(column.as_mut_ptr(), column.len())
    })
}

/// The light repair of a row of 182 bytes, in place.
///
/// # Errors
/// 1, with `row` as it was.
pub fn correct_light_row(row: &mut [u8]) -> Result<crate::LightOutcome, Refusal> {
    crate::words::light_outcome(unsafe {
        raw::chamanzil_correct_light_row(row.as_mut_ptr(), row.len())
    })
}
