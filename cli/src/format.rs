//! `format`: an image to the stream of a run. Blocks are made ahead on other threads; the writer lays their sectors one block after the other.
use chamanzil::{slices, Record, Refusal, BLOCK, BLOCK_STREAM, CLOSING, MAIN, SECTOR_MAIN};

use crate::arguments::Format;
use crate::failure::{bytes, Failure, Refused};
use crate::input::Input;
use crate::output::{self, Output};
use crate::pieces::{in_order, of_image, Piece};
use crate::progress::Progress;
use crate::{say, Ending};

/// A block that is made, or why it is not.
struct Made {
    block: u64,
    /// Bytes of the image that it has.
    bytes: usize,
    answer: Result<Vec<u8>, Refusal>,
}

/// The first number of a block of the run. What is past 32 bits is past every number that the maker takes.
fn number(first: u32, block: u64) -> u32 {
    u32::try_from(u64::from(first) + 16 * block).unwrap_or(u32::MAX)
}

/// Sectors that are whole are filled up to a block. Others go to the maker as they are, which refuses them.
fn filled(mut main: Vec<u8>) -> Vec<u8> {
    if main.len() % SECTOR_MAIN == 0 {
        main.resize(MAIN, 0);
    }
    main
}

fn make(first: u32, info: u8, piece: Piece) -> Made {
    let Piece { block, bytes } = piece;
    let previous = block.checked_sub(1).map(|before| number(first, before));
    let length = bytes.len();
    let mut out = vec![0; BLOCK];
    let answer = slices::encode_block(
        &filled(bytes),
        previous,
        number(first, block),
        info,
        &mut out,
    );
    Made {
        block,
        bytes: length,
        answer: answer.map(|()| out),
    }
}

impl Made {
    fn refused(&self, refusal: Refusal) -> Refused {
        let words = (refusal == Refusal::Length).then(|| {
            let has = bytes(self.bytes);
            format!(
                "the image has {has} for this block, no whole number of sectors of {SECTOR_MAIN}"
            )
        });
        Refused {
            refusal,
            block: Some(self.block),
            words,
        }
    }

    /// The writer's sixteen sectors.
    fn write(&self, record: &mut Record, stream: &mut [u8]) -> Result<(), Refusal> {
        let block = self.answer.as_ref().map_err(|refusal| *refusal)?;
        slices::write_sectors(record, block, stream)
    }
}

/// The last line, which operators log: the DSV is that after the closing code, which the peak does not count.
fn summary(blocks: usize, record: &Record) -> String {
    let Record {
        sectors, dsv, peak, ..
    } = record;
    format!("blocks {blocks} sectors {sectors} dsv {dsv} peak {peak}")
}

pub fn run(chosen: &Format) -> Result<Ending, Failure> {
    let (first, info) = (chosen.first, chosen.info);
    let image = Input::open(&chosen.image)?;
    let mut output = Output::create(&chosen.output)?;
    let progress = Progress::over(image.length);
    let mut record = Record::new();
    let mut stream = vec![0; BLOCK_STREAM];
    let (mut blocks, mut taken) = (0_usize, 0);

    in_order(
        of_image(image),
        move |piece| make(first, info, piece),
        |made| {
            made.write(&mut record, &mut stream)
                .map_err(|refusal| made.refused(refusal))?;
            blocks += 1;
            taken += made.bytes;
            progress.passed(made.bytes);
            output.write(&stream)
        },
    )?;
    let mut closing = [0; CLOSING];
    slices::close(&mut record, &mut closing).map_err(|refusal| Refused {
        refusal,
        block: None,
        words: None,
    })?;
    output.write(&closing)?;
    output::finish(vec![output])?;
    drop(progress);

    match (blocks * MAIN - taken) / SECTOR_MAIN {
        0 => {}
        1 => say("filled up with 1 zero sector"),
        more => say(format!("filled up with {more} zero sectors")),
    }
    say(summary(blocks, &record));
    Ok(Ending::Done)
}
