use crate::{slices, Refusal, BLOCK, BLOCK_STREAM, CLOSING, MAIN, SECTOR, SECTOR_STREAM};

/// The writer's record: the State prescribed next, the NRZI level, the DSV, the sectors of the run written, whether the closing code is written, the peak, and the
/// mark of a trial. It lies in memory as `crates/writer` and C have it.
#[repr(C)]
#[derive(Clone, Copy, Debug, PartialEq, Eq, Hash)]
pub struct Record {
    /// 1 to 4.
    pub state: u8,
    /// 0 or 1.
    pub level: u8,
    /// The Digital Sum Value so far.
    pub dsv: i64,
    /// 0 to 16,777,216.
    pub sectors: u32,
    /// Whether the closing code is written.
    pub closed: bool,
    /// The greatest absolute DSV of the run at the end of any Sync Frame so far, 0 before the first. The closing code does not count.
    pub peak: u64,
    /// Whether a trial is marked.
    pub marked: bool,
    /// The DSV that it gave, 0 where none is marked.
    pub mark: i64,
}

impl Record {
    /// The record before the first sector of a run.
    #[must_use]
    pub const fn new() -> Self {
        Record {
            state: 1,
            level: 0,
            dsv: 0,
            sectors: 0,
            closed: false,
            peak: 0,
            marked: false,
            mark: 0,
        }
    }
}

impl Default for Record {
    fn default() -> Self {
        Self::new()
    }
}

/// The writer (clause 22): it goes on over the blocks of a run, and closes it. A call takes it by value and hands back the next one; a refusal leaves the caller's
/// own as it was.
///
/// ```
/// use chamanzil::{read_block, Refusal, Writer, BLOCK_STREAM, CLOSING, MAIN, STREAM};
/// let mains = [[1; MAIN], [2; MAIN]];
/// let mut stream = vec![0; 2 * BLOCK_STREAM + CLOSING];
/// let mut writer = Writer::new();
/// for ((main, first), out) in mains.iter().zip([0x03_0000, 0x03_0010]).zip(stream.chunks_mut(BLOCK_STREAM)) {
///     writer = writer.write_block(main, first, 0x00, out.try_into().unwrap())?;
/// }
/// writer = writer.close((&mut stream[2 * BLOCK_STREAM..]).try_into().unwrap())?;
/// assert_eq!(writer.close(&mut [0; CLOSING]), Err(Refusal::RunEnded));
///
/// for (k, main) in mains.iter().enumerate() {
///     let read = read_block(stream[k * BLOCK_STREAM..][..STREAM].try_into().unwrap())?;
///     assert_eq!(*read.main, *main);
/// }
/// # Ok::<(), Refusal>(())
/// ```
#[derive(Clone, Copy, Debug, Default, PartialEq, Eq, Hash)]
pub struct Writer {
    record: Record,
    previous: Option<u32>,
}

impl Writer {
    /// At the start of a run.
    ///
    /// ```
    /// let writer = chamanzil::Writer::new();
    /// assert_eq!((writer.record(), writer.previous()), (chamanzil::Record::new(), None));
    /// ```
    #[must_use]
    pub const fn new() -> Self {
        Writer {
            record: Record::new(),
            previous: None,
        }
    }

    /// From a record that was kept, and the first number of the block before. A record that no writer hands out is refused with number 9 by the next call.
    ///
    /// ```
    /// use chamanzil::{Record, Refusal, Writer, BLOCK_STREAM, CLOSING, MAIN};
    /// let writer = Writer::new().write_block(&[0; MAIN], 0, 0, &mut [0; BLOCK_STREAM])?;
    /// assert_eq!(Writer::from_record(writer.record(), writer.previous()), writer);
    /// let writer = Writer::from_record(Record { state: 5, ..Record::new() }, None);
    /// assert_eq!(writer.close(&mut [0; CLOSING]), Err(Refusal::Record));
    /// # Ok::<(), Refusal>(())
    /// ```
    #[must_use]
    pub const fn from_record(record: Record, previous: Option<u32>) -> Self {
        Writer { record, previous }
    }

    /// The record.
    #[must_use]
    pub const fn record(self) -> Record {
        self.record
    }

    /// The first number of the last block that [`write_block`](Self::write_block) wrote, which the next one has to follow.
    ///
    /// ```
    /// use chamanzil::{Refusal, Writer, BLOCK_STREAM, MAIN};
    /// let (main, mut out) = ([0; MAIN], [0; BLOCK_STREAM]);
    /// let writer = Writer::new().write_block(&main, 0x03_0000, 0, &mut out)?;
    /// assert_eq!(writer.previous(), Some(0x03_0000));
    /// assert_eq!(writer.write_block(&main, 0x03_0020, 0, &mut out), Err(Refusal::Sequence));
    /// # Ok::<(), Refusal>(())
    /// ```
    #[must_use]
    pub const fn previous(self) -> Option<u32> {
        self.previous
    }

    /// Tries a sector of a block, by the two-stream rule, without writing it: the [`Trial`] tells the DSV after it, and takes it. The bytes are the caller's, and
    /// what block they are of is not looked at: [`previous`](Self::previous) stays. Who does not want the sector goes on with the writer that he has.
    ///
    /// ```
    /// use chamanzil::{encode_block, Refusal, Writer, BLOCK_STREAM, MAIN, SECTOR, SECTOR_STREAM};
    /// let (mut by_block, mut by_sectors) = ([0; BLOCK_STREAM], [0; BLOCK_STREAM]);
    /// let whole = Writer::new().write_block(&[0; MAIN], 0, 0, &mut by_block)?;
    /// let block = encode_block(&[0; MAIN], None, 0, 0)?;
    /// let mut writer = Writer::new();
    /// for (sector, out) in block.chunks(SECTOR).zip(by_sectors.chunks_mut(SECTOR_STREAM)) {
    ///     let sector = sector.try_into().unwrap();
    ///     let trial = writer.trial(sector)?;
    ///     println!("the DSV would go to {}", trial.dsv());
    ///     writer = trial.take(sector, out.try_into().unwrap())?;
    /// }
    /// assert_eq!((by_sectors, writer.record()), (by_block, whole.record()));
    /// # Ok::<(), Refusal>(())
    /// ```
    ///
    /// # Errors
    /// 9 or 7.
    pub fn trial(self, bytes: &[u8; SECTOR]) -> Result<Trial, Refusal> {
        // of the buffer that a take would fill only the length is looked at
        static UNREAD: [u8; SECTOR_STREAM] = [0; SECTOR_STREAM];
        let Writer {
            mut record,
            previous,
        } = self;
        let dsv = slices::trial(&mut record, bytes, &UNREAD)?;
        let tried = Writer { record, previous };
        Ok(Trial { tried, dsv })
    }

    /// The sixteen sectors of a block that is made, without trials. What block it is of is not looked at: [`previous`](Self::previous) stays.
    ///
    /// ```
    /// use chamanzil::{encode_block, Refusal, Writer, BLOCK_STREAM, MAIN};
    /// let (mut one, mut other) = ([0; BLOCK_STREAM], [0; BLOCK_STREAM]);
    /// let whole = Writer::new().write_block(&[0; MAIN], 0, 0, &mut one)?;
    /// let writer = Writer::new().write_sectors(&*encode_block(&[0; MAIN], None, 0, 0)?, &mut other)?;
    /// assert_eq!((one, whole.record()), (other, writer.record()));
    /// # Ok::<(), Refusal>(())
    /// ```
    ///
    /// # Errors
    /// 9 or 7, with `out` as it was.
    pub fn write_sectors(
        self,
        block: &[u8; BLOCK],
        out: &mut [u8; BLOCK_STREAM],
    ) -> Result<Self, Refusal> {
        let Writer {
            mut record,
            previous,
        } = self;
        slices::write_sectors(&mut record, block, out)?;
        Ok(Writer { record, previous })
    }

    /// A whole block of the run: the block maker, which holds `first` to the block before, then sixteen sectors.
    ///
    /// ```
    /// use chamanzil::{format_block, Refusal, Writer, BLOCK_STREAM, MAIN};
    /// let (main, mut out) = ([0; MAIN], [0; BLOCK_STREAM]);
    /// let writer = Writer::new().write_block(&main, 0x03_0000, 0, &mut out)?;
    /// assert_eq!(out, format_block(&main, 0x03_0000, 0)?[..BLOCK_STREAM]);
    /// let writer = writer.write_block(&main, 0x03_0010, 0, &mut out)?;
    /// assert_eq!(writer.record().sectors, 32);
    /// assert!(writer.record().peak >= writer.record().dsv.unsigned_abs());
    /// # Ok::<(), Refusal>(())
    /// ```
    ///
    /// # Errors
    /// 2, 3, 10, 9 or 7, with `out` as it was.
    pub fn write_block(
        self,
        main: &[u8; MAIN],
        first: u32,
        info: u8,
        out: &mut [u8; BLOCK_STREAM],
    ) -> Result<Self, Refusal> {
        let mut record = self.record;
        slices::write_block(&mut record, self.previous, main, first, info, out)?;
        Ok(Writer {
            record,
            previous: Some(first),
        })
    }

    /// The closing code after the last block of the run: SY0 of the class that the State prescribes, Primary or Secondary, whichever leaves the lower
    /// absolute DSV after its 32 bits; the Primary where both leave the same.
    ///
    /// ```
    /// use chamanzil::{Record, Refusal, Writer, BLOCK_STREAM, CLOSING, MAIN};
    /// let mut out = [0; CLOSING];
    /// assert_eq!(Writer::new().close(&mut out), Err(Refusal::RunUnfinished));
    /// let writer = Writer::new().write_block(&[0; MAIN], 0, 0, &mut [0; BLOCK_STREAM])?;
    /// assert!(writer.close(&mut out)?.record().closed);
    /// // from level ZERO the Primary takes 10 off the DSV, the Secondary adds 4: they tip at 3
    /// for (dsv, second_byte, after) in [(2, 0x04, 6), (3, 0x44, -7), (4, 0x44, -6)] {
    ///     let writer = Writer::from_record(Record { dsv, sectors: 16, peak: 4, ..Record::new() }, None);
    ///     assert_eq!(writer.close(&mut out)?.record().dsv, after);
    ///     assert_eq!(out, [0x12, second_byte, 0x00, 0x11]);
    /// }
    /// # Ok::<(), Refusal>(())
    /// ```
    ///
    /// # Errors
    /// 9, 7 or 8, with `out` as it was.
    pub fn close(self, out: &mut [u8; CLOSING]) -> Result<Self, Refusal> {
        let Writer {
            mut record,
            previous,
        } = self;
        slices::close(&mut record, out)?;
        Ok(Writer { record, previous })
    }
}

/// A sector that a [`Writer`] tried: the DSV after it, and the writer that takes it. Nothing else can take, so that no take is without a trial:
///
/// ```compile_fail
/// use chamanzil::{Writer, SECTOR, SECTOR_STREAM};
/// Writer::new().take(&[7; SECTOR], &mut [0; SECTOR_STREAM]);
/// ```
///
/// ```
/// use chamanzil::{Refusal, Writer, SECTOR, SECTOR_STREAM};
/// let mut out = [0; SECTOR_STREAM];
/// let trial = Writer::new().trial(&[7; SECTOR])?;
/// // other bytes with another DSV are refused, and the trial stands
/// assert_eq!((trial.dsv(), Writer::new().trial(&[99; SECTOR])?.dsv()), (4, -2));
/// assert_eq!(trial.take(&[99; SECTOR], &mut out), Err(Refusal::OtherDsv));
/// assert_eq!(out, [0; SECTOR_STREAM]);
/// let writer = trial.take(&[7; SECTOR], &mut out)?;
/// assert_eq!((writer.record().dsv, writer.record().sectors), (trial.dsv(), 1));
/// # Ok::<(), Refusal>(())
/// ```
#[must_use]
#[derive(Clone, Copy, Debug, PartialEq, Eq, Hash)]
pub struct Trial {
    tried: Writer,
    dsv: i64,
}

impl Trial {
    /// The DSV after the sector.
    #[must_use]
    pub const fn dsv(self) -> i64 {
        self.dsv
    }

    /// Writes the sector. The bytes are those that were tried; others pass where the DSV after them is the same.
    ///
    /// # Errors
    /// 13, with `out` as it was.
    pub fn take(
        self,
        bytes: &[u8; SECTOR],
        out: &mut [u8; SECTOR_STREAM],
    ) -> Result<Writer, Refusal> {
        let Writer {
            mut record,
            previous,
        } = self.tried;
        slices::take(&mut record, bytes, out)?;
        Ok(Writer { record, previous })
    }
}
