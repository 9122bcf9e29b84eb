//! What `recover` and `pool` hand out: the image and the sheet, with what is said on the way and the summary at the end. How a block is read is the command's own.
use chamanzil::{BlockRead, Tally, BLOCK_STREAM, MAIN};

use crate::arguments::Handout;
use crate::failure::{Failure, Refused};
use crate::output::{self, Output};
use crate::pieces::in_order;
use crate::progress::Progress;
use crate::sheet::Answer;
use crate::{say, Ending};

/// A block as it is handed out.
pub struct Handed {
    pub answer: Answer,
    /// Its line in the sheet, without the newline.
    pub line: String,
    /// What is told of it on standard error, if anything is.
    pub told: Option<String>,
    /// What it adds to the count that is its command's own.
    pub count: u64,
}

/// The sums of the bench sheet's counts over the blocks that are read, and where their numbers should have led.
#[derive(Default)]
struct Summary {
    blocks: u64,
    refused: u64,
    rows: Sum,
    columns: Sum,
    unknown: u64,
    sync: u64,
    /// The command's own.
    count: u64,
    /// The number that follows for the next block, once one is read.
    next: Option<u32>,
}

#[derive(Default)]
struct Sum {
    changed: u64,
    past_help: u64,
}

impl Sum {
    fn add(&mut self, tally: Tally) {
        self.changed += u64::from(tally.changed);
        self.past_help += u64::from(tally.past_help);
    }
}

impl Summary {
    /// Counts a block in; a number that does not follow from the blocks before is told.
    fn add(&mut self, block: &Handed) -> Option<String> {
        self.blocks += 1;
        let due = self.next;
        self.next = due.map(|number| number.wrapping_add(16));
        let Ok(read) = &block.answer.read else {
            self.refused += 1;
            return None;
        };
        self.count += block.count;
        self.rows.add(read.rows);
        self.columns.add(read.columns);
        self.unknown += u64::from(read.unknown);
        self.sync += u64::from(read.sync);
        self.next = Some(read.first.wrapping_add(16));
        let due = due.filter(|number| *number != read.first)?;
        Some(format!(
            "block {} has number {:06X}, where {due:06X} follows",
            block.answer.block, read.first
        ))
    }

    /// The command's own count comes last, in its words.
    fn line(&self, counted: fn(u64) -> String) -> String {
        let Summary {
            blocks,
            refused,
            rows,
            columns,
            unknown,
            sync,
            ..
        } = self;
        format!(
            "blocks {blocks} refused {refused} rows {} {} columns {} {} unknown {unknown} sync {sync}{}",
            rows.changed, rows.past_help, columns.changed, columns.past_help, counted(self.count)
        )
    }
}

/// The image and the sheet, as they are written.
struct Outputs {
    image: Output,
    sheet: Option<Output>,
    /// Bytes of the image that are still asked for, where a number was.
    left: Option<u64>,
}

impl Outputs {
    fn create(chosen: &Handout) -> Result<Self, Failure> {
        let sheet = chosen.sheet.as_deref();
        output::distinct(&[("--output", Some(&chosen.output)), ("--sheet", sheet)])?;
        let sheet = sheet.map(Output::create).transpose()?;
        Ok(Outputs {
            image: Output::create(&chosen.output)?,
            sheet,
            left: chosen.length,
        })
    }

    /// The next bytes of the image, as far as they are asked for.
    fn write_main(&mut self, main: &[u8]) -> Result<(), Failure> {
        let Some(left) = &mut self.left else {
            return self.image.write(main);
        };
        let taken = usize::try_from(*left).map_or(main.len(), |left| left.min(main.len()));
        *left -= taken as u64;
        self.image.write(&main[..taken])
    }

    fn write(&mut self, block: &Handed) -> Result<(), Failure> {
        if let Some(sheet) = &mut self.sheet {
            sheet.write(format!("{}\n", block.line).as_bytes())?;
        }
        match &block.answer.read {
            Ok(BlockRead { main, .. }) => self.write_main(&main[..]),
            Err(_) => self.write_main(&vec![0; MAIN]),
        }
    }

    /// Both are whole, unless more was asked for than there is.
    fn finish(self, length: Option<u64>, blocks: u64) -> Result<(), Failure> {
        if let (Some(length), Some(1..)) = (length, self.left) {
            let all = blocks * MAIN as u64;
            let words = format!("--length {length}, where the blocks have {all} bytes");
            return Err(Failure::Refused(Refused {
                refusal: chamanzil::Refusal::Length,
                block: None,
                words: Some(words),
            }));
        }
        let outputs = [Some(self.image), self.sheet];
        output::finish(outputs.into_iter().flatten().collect())
    }
}

/// Hands out the blocks that `read` makes of the pieces; `length` are the bytes of a stream, where they are known. The summary ends in the command's own count, as
/// `counted` has it.
pub fn run<T: Send + 'static>(
    chosen: &Handout,
    length: Option<u64>,
    pieces: impl Iterator<Item = Result<T, Failure>> + Send + 'static,
    read: impl Fn(T) -> Handed + Send + Sync + 'static,
    counted: fn(u64) -> String,
) -> Result<Ending, Failure> {
    let mut outputs = Outputs::create(chosen)?;
    let progress = Progress::over(length);
    let mut summary = Summary::default();
    in_order(pieces, read, |block| {
        progress.passed(BLOCK_STREAM);
        if let Some(refused) = block.answer.refused() {
            if !chosen.keep_going {
                return Err(refused.into());
            }
            progress.say(refused);
        }
        let jump = summary.add(&block);
        let told = [block.told.as_ref(), jump.as_ref()];
        told.into_iter()
            .flatten()
            .for_each(|line| progress.say(line));
        outputs.write(&block)
    })?;
    outputs.finish(chosen.length, summary.blocks)?;
    drop(progress);
    say(summary.line(counted));
    Ok(if summary.refused == 0 {
        Ending::Done
    } else {
        Ending::Refused
    })
}
