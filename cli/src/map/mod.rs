//! `map`: a picture of one block.
mod damage;
mod page;
mod picture;

use std::path::Path;

use chamanzil::BLOCK_STREAM;

use crate::arguments::{Kind, Map};
use crate::failure::{Failure, Refused, THE_STREAM};
use crate::input::Input;
use crate::output::{self, Output};
use crate::{say, Ending};
use damage::Damage;

/// What is drawn: as asked for, else by the name's ending, and on standard output the picture.
fn kind(chosen: &Map) -> Result<Kind, Failure> {
    let ending = chosen.output.extension().and_then(|ending| ending.to_str());
    match (chosen.kind, ending) {
        (Some(kind), _) => Ok(kind),
        (None, Some("png")) => Ok(Kind::Png),
        (None, Some("html")) => Ok(Kind::Html),
        (None, _) if chosen.output == Path::new("-") => Ok(Kind::Png),
        (None, _) => {
            let name = chosen.output.display();
            let words = format!("{name} ends neither in .png nor in .html: --as says which it is");
            Err(Failure::Arguments(words))
        }
    }
}

/// The bytes of the stream that block K is read from.
fn block_of(chosen: &Map, mut stream: Input) -> Result<Vec<u8>, Failure> {
    let before = chosen.block.saturating_mul(BLOCK_STREAM as u64);
    stream.skip(before)?;
    stream.fill(Vec::new(), chamanzil::STREAM)
}

pub fn run(chosen: &Map) -> Result<Ending, Failure> {
    let kind = kind(chosen)?;
    let bytes = block_of(chosen, Input::open(&chosen.stream)?)?;
    let refused = |refusal| Refused::in_stream(refusal, chosen.block, THE_STREAM, bytes.len());
    let stream = bytes[..]
        .try_into()
        .map_err(|_| refused(chamanzil::Refusal::Length))?;
    let damage = Damage::of(stream);

    let mut output = Output::create(&chosen.output)?;
    let picture = picture::draw(&damage);
    match kind {
        Kind::Png => output.write(&picture)?,
        Kind::Html => {
            let title = format!("Block {} of {}", chosen.block, chosen.stream.display());
            output.write(page::page(&title, &damage, &picture).as_bytes())?;
        }
    }
    output::finish(vec![output])?;

    let ending = match damage.refusal {
        Some(refusal) => {
            say(refused(refusal));
            Ending::Refused
        }
        None => Ending::Done,
    };
    say(damage.counts());
    say(&damage.line);
    Ok(ending)
}
