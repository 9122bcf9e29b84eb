use std::error::Error;
use std::fmt;

/// What a call refuses, by the numbers of documents 01 and 02: 1 to 14.
///
/// ```
/// use chamanzil::{encode_block, Refusal, MAIN};
/// let refusal = encode_block(&[0; MAIN], None, 8, 0).unwrap_err();
/// assert_eq!(refusal, Refusal::FirstNumber);
/// assert_eq!(refusal.number(), 2);
/// assert_eq!(refusal.frame(), None);
/// assert_eq!(refusal.to_string(), "refused 2: the first number is no multiple of 16, or over 16,777,200");
/// ```
#[derive(Clone, Copy, Debug, PartialEq, Eq, Hash)]
pub enum Refusal {
    /// 1: a buffer has another length than stated.
    Length,
    /// 2: the first number is no multiple of 16, or over 16,777,200.
    FirstNumber,
    /// 3: the Sector Information byte has a bit outside 2D (hexadecimal).
    Information,
    /// 4: the IED of this frame, 0 to 15, differs.
    Ied {
        /// The first frame that fails.
        frame: u8,
    },
    /// 5: the number or the Information byte of this frame is not the one due.
    Id {
        /// The first frame that fails.
        frame: u8,
    },
    /// 6: the EDC of this frame differs.
    Edc {
        /// The first frame that fails.
        frame: u8,
    },
    /// 7: a sector after number 16,777,216 of the run, or anything after closing.
    RunEnded,
    /// 8: closing at no sectors, or at a count that is no multiple of 16.
    RunUnfinished,
    /// 9: a record that the writer never hands out.
    Record,
    /// 10: the first number is not the previous block's first number plus 16.
    Sequence,
    /// 11: a mark is neither 0 nor 1.
    Erasure,
    /// 12: a take, and no trial is marked in the record. A [`Trial`](crate::Trial) is never refused with it.
    NotTried,
    /// 13: a take of a sector whose DSV is not the one that the trial gave.
    OtherDsv,
    /// 14: a capture has more stretches than the lent list has entries. [`read_capture`](crate::read_capture) is never refused with it.
    Stretches,
}

impl Refusal {
    /// The papers' number.
    #[must_use]
    pub fn number(self) -> u8 {
        match self {
            Refusal::Length => 1,
            Refusal::FirstNumber => 2,
            Refusal::Information => 3,
            Refusal::Ied { .. } => 4,
            Refusal::Id { .. } => 5,
            Refusal::Edc { .. } => 6,
            Refusal::RunEnded => 7,
            Refusal::RunUnfinished => 8,
            Refusal::Record => 9,
            Refusal::Sequence => 10,
            Refusal::Erasure => 11,
            Refusal::NotTried => 12,
            Refusal::OtherDsv => 13,
            Refusal::Stretches => 14,
        }
    }

    /// The first frame that fails, with numbers 4 to 6.
    #[must_use]
    pub fn frame(self) -> Option<u8> {
        match self {
            Refusal::Ied { frame } | Refusal::Id { frame } | Refusal::Edc { frame } => Some(frame),
            _ => None,
        }
    }
}

impl fmt::Display for Refusal {
    fn fmt(&self, f: &mut fmt::Formatter<'_>) -> fmt::Result {
        write!(f, "refused {}", self.number())?;
        if let Some(frame) = self.frame() {
            write!(f, " frame {frame}")?;
        }
        f.write_str(match self {
            Refusal::Length => ": a buffer has another length than stated",
            Refusal::FirstNumber => ": the first number is no multiple of 16, or over 16,777,200",
            Refusal::Information => ": the Sector Information has a bit outside 2D",
            Refusal::Ied { .. } => ": the frame's IED differs",
            Refusal::Id { .. } => ": the frame's number or Information is not the one due",
            Refusal::Edc { .. } => ": the frame's EDC differs",
            Refusal::RunEnded => {
                ": a sector after number 16,777,216 of the run, or anything after closing"
            }
            Refusal::RunUnfinished => {
                ": closing at no sectors, or at a count that is no multiple of 16"
            }
            Refusal::Record => ": the writer never hands out this record",
            Refusal::Sequence => ": the first number is not the previous block's plus 16",
            Refusal::Erasure => ": a mark is neither 0 nor 1",
            Refusal::NotTried => ": no trial of a sector is marked",
            Refusal::OtherDsv => ": the sector's DSV is not the one that the trial gave",
            Refusal::Stretches => ": the capture has more stretches than the list has entries",
        })
    }
}

impl Error for Refusal {}

/// The answer of a call that gives numbers 4 to 6 with a frame.
pub(crate) fn answer(number: u32, frame: u32) -> Result<(), Refusal> {
    let frame = u8::try_from(frame).unwrap_or(u8::MAX);
    match number {
        0 => Ok(()),
        1 => Err(Refusal::Length),
        2 => Err(Refusal::FirstNumber),
        3 => Err(Refusal::Information),
        4 => Err(Refusal::Ied { frame }),
        5 => Err(Refusal::Id { frame }),
        6 => Err(Refusal::Edc { frame }),
        7 => Err(Refusal::RunEnded),
        8 => Err(Refusal::RunUnfinished),
        9 => Err(Refusal::Record),
        10 => Err(Refusal::Sequence),
        11 => Err(Refusal::Erasure),
        12 => Err(Refusal::NotTried),
        13 => Err(Refusal::OtherDsv),
        14 => Err(Refusal::Stretches),
        other => unreachable!("no contract of crates/ffi gives {other}"),
    }
}
