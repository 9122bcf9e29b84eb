use crate::{slices, Refusal, CAPTURE_REPORT, FRAME, FRAME_STREAM};

/// Bits of a capture that are in no frame taken, as many as follow one another.
#[derive(Clone, Copy, Debug, PartialEq, Eq, Hash)]
pub struct Stretch {
    /// The first of them, counted from bit 0 of the capture.
    pub start: u64,
    /// How many.
    pub bits: u64,
}

/// What the capture reader reads.
#[derive(Clone, Debug, PartialEq, Eq)]
pub struct Captured {
    /// The bytes of the frames taken, 91 each, in order; 0 for an unknown word.
    pub bytes: Vec<u8>,
    /// How many frames were taken.
    pub frames: u64,
    /// The bits in no frame taken. Their order is not stated.
    pub stretches: Vec<Stretch>,
}

/// The capture reader, for a stream without a known start: whole bytes, filled up with ZEROs. A frame of 1,488 bits is taken where any SYNC Code of table 4 starts
/// it and any stands right after it; otherwise the look moves on by a bit. It starts at bit 0, and after a frame taken it moves to the second SYNC Code.
///
/// ```
/// use chamanzil::{encode_block, format_block, read_capture, Stretch, FRAME, MAIN};
/// let block = encode_block(&[7; MAIN], None, 0x03_0000, 0)?;
/// let stream = format_block(&[7; MAIN], 0x03_0000, 0)?;
/// // a drive that begins 13 bits late, in mid SYNC Code, and drops a byte of the third frame
/// let late: Vec<u8> = [&stream[1..500], &stream[501..], &[0]].concat();
/// let capture: Vec<u8> = late.windows(2).map(|two| two[0] << 5 | two[1] >> 3).collect();
///
/// let captured = read_capture(&capture)?;
/// assert_eq!(captured.frames, 414);
/// assert_eq!(captured.bytes, [&block[FRAME..2 * FRAME], &block[3 * FRAME..]].concat());
/// let mut stretches = captured.stretches;
/// stretches.sort_by_key(|stretch| stretch.start);
/// let due = [
///     (0, 1_475),        // what is left of the first frame
///     (2_963, 1_480),    // the third frame, with eight bits less
///     (618_987, 32 + 5), // the closing code, which begins no frame, and ZEROs
/// ];
/// assert_eq!(stretches, due.map(|(start, bits)| Stretch { start, bits }));
/// # Ok::<(), chamanzil::Refusal>(())
/// ```
///
/// It takes memory for the frames' bytes, about half as many as the capture has, and for a list of stretches, a twelfth; [`slices::read_capture`] is lent both.
///
/// # Errors
/// 1 for a capture of more than 1,099,511,627,776 bytes.
pub fn read_capture(stream: &[u8]) -> Result<Captured, Refusal> {
    let most = stream.len() / FRAME_STREAM;
    let mut bytes = vec![0; FRAME * most];
    // always enough: frames do not overlap, so that there are at most `most`, and between two stretches there is one
    let mut entries = vec![0; 2 * (most + 1)];
    let mut report = [0; CAPTURE_REPORT];
    slices::read_capture(stream, &mut bytes, &mut entries, &mut report)?;
    let [frames, stretches] = report;
    let stretch = |entry: &[u64]| Stretch {
        start: entry[0],
        bits: entry[1],
    };
    bytes.truncate(FRAME * fitting(frames));
    Ok(Captured {
        bytes,
        frames,
        stretches: entries[..2 * fitting(stretches)]
            .chunks_exact(2)
            .map(stretch)
            .collect(),
    })
}

/// A count of what stands in a buffer.
fn fitting(count: u64) -> usize {
    usize::try_from(count).expect("as many fit in memory")
}
