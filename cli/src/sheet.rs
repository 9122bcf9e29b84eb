//! `sheet`: the bench sheet's line of each block. Here too is what every command that reads blocks shares.
use chamanzil::{read_block, BlockRead, Refusal, BLOCK_STREAM};

use crate::arguments::Sheet;
use crate::failure::{Failure, Refused, THE_STREAM};
use crate::input::Input;
use crate::pieces::{in_order, of_stream, Piece};
use crate::progress::Progress;
use crate::Ending;

/// A block as the library answers, and the bytes that there were for it in the stream, which is called so.
pub struct Answer {
    pub block: u64,
    pub stream: &'static str,
    pub bytes: usize,
    pub read: Result<BlockRead, Refusal>,
}

pub fn read(piece: &Piece) -> Answer {
    let stream = piece.bytes[..].try_into().map_err(|_| Refusal::Length);
    Answer {
        block: piece.block,
        stream: THE_STREAM,
        bytes: piece.bytes.len(),
        read: stream.and_then(read_block),
    }
}

/// The bench sheet's line (document 01, 'The bench sheet'), without its newline.
pub fn line(read: &Result<BlockRead, Refusal>) -> String {
    match read {
        Ok(read) => read.to_string(),
        Err(refusal) => match refusal.frame() {
            Some(frame) => format!("refused {} frame {frame}", refusal.number()),
            None => format!("refused {}", refusal.number()),
        },
    }
}

impl Answer {
    /// Why it is refused, if it is.
    pub fn refused(&self) -> Option<Refused> {
        let refusal = self.read.as_ref().err()?;
        let (stream, bytes) = (self.stream, self.bytes);
        Some(Refused::in_stream(*refusal, self.block, stream, bytes))
    }
}

pub fn run(chosen: &Sheet) -> Result<Ending, Failure> {
    let stream = Input::open(&chosen.stream)?;
    let progress = Progress::over(stream.length);
    let mut ending = Ending::Done;
    in_order(
        of_stream(stream),
        |piece| read(&piece),
        |answer| {
            progress.passed(BLOCK_STREAM);
            if let Some(refused) = answer.refused() {
                progress.say(refused);
                ending = Ending::Refused;
            }
            progress.tell(line(&answer.read))
        },
    )?;
    Ok(ending)
}
