//! `pool`: two streams of one run back to its image. The two readings of each block are pooled before the repair.
use chamanzil::{BlockRead, Refusal};

use crate::arguments::Pool;
use crate::failure::Failure;
use crate::handout::{self, Handed};
use crate::input::{is_standard, Input};
use crate::pieces::{of_streams, Pair};
use crate::reading::Reading;
use crate::sheet::{line, Answer};
use crate::Ending;

fn reading(bytes: &[u8]) -> Result<Reading, Refusal> {
    let stream = bytes.try_into().map_err(|_| Refusal::Length)?;
    Ok(Reading::of(stream))
}

fn read(pair: &Pair) -> Result<BlockRead, Refusal> {
    let (first, second) = (reading(&pair.first)?, reading(&pair.second)?);
    first.pooled(&second)?.repaired()
}

/// The block as the library answers. Where a stream has too few bytes for it, the one that has fewer is told of.
fn answer(pair: &Pair) -> Answer {
    let (first, second) = (pair.first.len(), pair.second.len());
    let (stream, bytes) = if second < first {
        ("the second stream", second)
    } else {
        ("the first stream", first)
    };
    Answer {
        block: pair.block,
        stream,
        bytes,
        read: read(pair),
    }
}

/// How many marks the pooled reading has.
fn marks(read: &BlockRead) -> u64 {
    read.erasures.iter().map(|mark| u64::from(*mark)).sum()
}

fn counted(marked: u64) -> String {
    format!(" marked {marked}")
}

fn handed(pair: &Pair) -> Handed {
    let answer = answer(pair);
    let marked = answer.read.as_ref().ok().map(marks);
    let end = marked.map(counted).unwrap_or_default();
    Handed {
        line: line(&answer.read) + &end,
        count: marked.unwrap_or(0),
        told: None,
        answer,
    }
}

pub fn run(chosen: &Pool) -> Result<Ending, Failure> {
    if is_standard(&chosen.first) && is_standard(&chosen.second) {
        let words = "only one of the two streams can be standard input";
        return Err(Failure::Arguments(words.to_owned()));
    }
    let first = Input::open(&chosen.first)?;
    let second = Input::open(&chosen.second)?;
    let length = first.length.or(second.length);
    let (pairs, read) = (of_streams(first, second), |pair: Pair| handed(&pair));
    handout::run(&chosen.handout, length, pairs, read, counted)
}
