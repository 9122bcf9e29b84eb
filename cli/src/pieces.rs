//! The pieces of a file that are worked on one by one, in constant memory: a thread reads ahead, all processors work on a batch, and the results come in order.
use std::panic;
use std::sync::mpsc::{sync_channel, Receiver, SyncSender};
use std::thread::{self, JoinHandle};

use chamanzil::{BLOCK_STREAM, MAIN, STREAM};
use rayon::iter::{IntoParallelIterator, ParallelIterator};

use crate::failure::Failure;
use crate::input::Input;

/// Pieces that go to the processors at once.
const BATCH: usize = 64;
/// Batches that wait between two threads at most.
const AHEAD: usize = 2;

/// A piece of a file: which one it is, from 0, and its bytes.
pub struct Piece {
    pub block: u64,
    pub bytes: Vec<u8>,
}

/// The main data of an image, block by block. The last piece may be short.
pub fn of_image(image: Input) -> impl Iterator<Item = Result<Piece, Failure>> {
    (0..).map_while(move |block| match image.fill(Vec::new(), MAIN) {
        Ok(bytes) if bytes.is_empty() => None,
        read => Some(read.map(|bytes| Piece { block, bytes })),
    })
}

/// The blocks of a stream: each with the four bytes after it, which are the next one's first four or the closing code. A stream that is no run's ends in a piece of
/// another length than 77,380, and an empty one is such a piece.
pub fn of_stream(stream: Input) -> impl Iterator<Item = Result<Piece, Failure>> {
    let mut seam = Some(Vec::new());
    (0..).map_while(move |block| {
        let begun = seam.take()?;
        let length = begun.len();
        let bytes = match stream.fill(begun, STREAM) {
            Ok(bytes) if block > 0 && bytes.len() == length => return None,
            Ok(bytes) => bytes,
            Err(failure) => return Some(Err(failure)),
        };
        if bytes.len() == STREAM {
            seam = Some(bytes[BLOCK_STREAM..].to_owned());
        }
        Some(Ok(Piece { block, bytes }))
    })
}

/// A block's bytes in two streams.
pub struct Pair {
    pub block: u64,
    pub first: Vec<u8>,
    pub second: Vec<u8>,
}

/// The next block of two streams, unless both have ended. A stream that has ended before the other has no bytes for it.
fn next_pair(
    block: u64,
    first: &mut impl Iterator<Item = Result<Piece, Failure>>,
    second: &mut impl Iterator<Item = Result<Piece, Failure>>,
) -> Result<Option<Pair>, Failure> {
    let (first, second) = (first.next().transpose()?, second.next().transpose()?);
    let is_there = first.is_some() || second.is_some();
    let bytes = |piece: Option<Piece>| piece.map_or_else(Vec::new, |piece| piece.bytes);
    Ok(is_there.then(|| Pair {
        block,
        first: bytes(first),
        second: bytes(second),
    }))
}

/// The blocks of two streams side by side, as far as the longer one goes.
pub fn of_streams(first: Input, second: Input) -> impl Iterator<Item = Result<Pair, Failure>> {
    let (mut first, mut second) = (of_stream(first), of_stream(second));
    (0..).map_while(move |block| next_pair(block, &mut first, &mut second).transpose())
}

type Batch<T> = Result<Vec<T>, Failure>;

fn batches<T>(mut pieces: impl Iterator<Item = Result<T, Failure>>, to: &SyncSender<Batch<T>>) {
    loop {
        let batch: Batch<T> = pieces.by_ref().take(BATCH).collect();
        let last = !matches!(&batch, Ok(some) if some.len() == BATCH);
        if to.send(batch).is_err() || last {
            return;
        }
    }
}

fn joined(threads: [JoinHandle<()>; 2]) {
    for thread in threads {
        if let Err(cause) = thread.join() {
            panic::resume_unwind(cause);
        }
    }
}

/// `work` on each piece, on all processors; `take` gets the results one by one in the order of the pieces. Where `take` fails nothing waits for the threads: one may
/// stand at a pipe that gives nothing for long.
pub fn in_order<T: Send + 'static, R: Send + 'static>(
    pieces: impl Iterator<Item = Result<T, Failure>> + Send + 'static,
    work: impl Fn(T) -> R + Send + Sync + 'static,
    mut take: impl FnMut(R) -> Result<(), Failure>,
) -> Result<(), Failure> {
    let (read, to_work): (_, Receiver<Batch<T>>) = sync_channel(AHEAD);
    let (worked, to_take) = sync_channel(AHEAD);
    let reading = thread::spawn(move || batches(pieces, &read));
    let working = thread::spawn(move || {
        for batch in to_work {
            let results: Batch<R> = batch.map(|some| some.into_par_iter().map(&work).collect());
            if worked.send(results).is_err() {
                return;
            }
        }
    });
    for batch in to_take {
        for result in batch? {
            take(result)?;
        }
    }
    joined([reading, working]);
    Ok(())
}
