//! `check`: lengths, zero runs and SYNC Codes of a run.
use chamanzil::{
    closing_holds, read_sector, zero_runs_hold, BLOCK_STREAM, SECTOR_READ, SECTOR_STREAM, STREAM,
};

use crate::arguments::Check;
use crate::failure::{Failure, Refused, THE_STREAM};
use crate::input::Input;
use crate::pieces::{in_order, of_stream, Piece};
use crate::progress::Progress;
use crate::Ending;

/// What is wrong with a block, each in a line, and the four bytes after it.
struct Checked {
    faults: Vec<String>,
    after: Vec<u8>,
}

/// The SYNC places of each sector of a block that hold none of the codes due there.
fn lost_syncs(stream: &[u8]) -> impl Iterator<Item = (usize, u32)> + '_ {
    let starts = (0..BLOCK_STREAM).step_by(SECTOR_STREAM);
    let sectors = starts.filter_map(|at| stream.get(at..at + SECTOR_READ)?.try_into().ok());
    let lost = sectors.map(|sector| read_sector(sector).sync).enumerate();
    lost.filter(|(_, count)| *count > 0)
}

fn check(piece: &Piece) -> Checked {
    let Piece { block, bytes } = piece;
    if bytes.len() != STREAM {
        let (refusal, length) = (chamanzil::Refusal::Length, bytes.len());
        let refused = Refused::in_stream(refusal, *block, THE_STREAM, length);
        return Checked {
            faults: vec![refused.to_string()],
            after: Vec::new(),
        };
    }
    let mut faults = Vec::new();
    if !zero_runs_hold(bytes) {
        faults.push(format!(
            "block {block}: runs of ZEROs that a stream may not have"
        ));
    }
    faults.extend(lost_syncs(bytes).map(|(sector, count)| {
        let places = if count == 1 {
            "SYNC place holds"
        } else {
            "SYNC places hold"
        };
        format!("block {block} sector {sector}: {count} {places} none of the codes due there")
    }));
    Checked {
        faults,
        after: bytes[BLOCK_STREAM..].to_owned(),
    }
}

pub fn run(chosen: &Check) -> Result<Ending, Failure> {
    let stream = Input::open(&chosen.stream)?;
    let progress = Progress::over(stream.length);
    let (mut blocks, mut faults) = (0, 0);
    let mut after = Vec::new();
    in_order(
        of_stream(stream),
        |piece| check(&piece),
        |checked| {
            progress.passed(BLOCK_STREAM);
            blocks += 1;
            faults += checked.faults.len();
            checked.faults.iter().for_each(|fault| progress.say(fault));
            after = checked.after;
            Ok(())
        },
    )?;
    // where the length is refused there is no closing code to speak of
    if !after.is_empty() && !closing_holds(&after) {
        progress.say("the closing code is none of SY0's");
        faults += 1;
    }
    drop(progress);
    if faults > 0 {
        return Ok(Ending::Refused);
    }
    let sectors = 16 * blocks;
    crate::tell(format!(
        "blocks {blocks} sectors {sectors}: lengths, zero runs and SYNC Codes hold"
    ))?;
    Ok(Ending::Done)
}
