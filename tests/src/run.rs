//! Blocks that follow on, the second implementation (document 02, request 1): a run's blocks, its stream, and the call for a whole block of it.
use crate::block::{block, refusal, BLOCK, MAIN};
use crate::tables::Tables;
use crate::writing::{write_sector, Record, LAID, SECTOR};

/// A block's sixteen sectors in a run's stream.
pub const BLOCK_LAID: usize = 16 * LAID;

/// What the block maker is given.
#[derive(Clone)]
pub struct Input {
    pub main: Vec<u8>,
    pub first: u32,
    pub info: u8,
}

impl Input {
    pub fn block(&self) -> Vec<u8> {
        block(&self.main, self.first, self.info)
    }
}

/// The first number of the block before block k of a run.
pub fn previous_of(inputs: &[Input], k: usize) -> Option<u32> {
    k.checked_sub(1).map(|before| inputs[before].first)
}

/// The blocks of a run, one after the other.
pub fn blocks_of(inputs: &[Input]) -> Vec<u8> {
    inputs.iter().flat_map(Input::block).collect()
}

/// Block k of a run's stream: its sectors and the four bytes after them, the next block's SYNC Code or the closing code.
pub fn part(stream: &[u8], k: usize) -> &[u8] {
    &stream[BLOCK_LAID * k..][..BLOCK_LAID + 4]
}

/// The number of the call for a whole block of a run: the maker's 1, 2, 3 and 10, then the writer's 9 and 7 for sixteen sectors.
pub fn block_refusal(record: &Record, previous: Option<u32>, input: &Input, to: usize) -> u32 {
    if to != BLOCK_LAID {
        return 1;
    }
    match refusal(input.main.len(), BLOCK, previous, input.first, input.info) {
        0 => record.run_refusal(16),
        number => number,
    }
}

/// A whole block of a run from a record, which becomes the one after its sixteenth sector.
pub fn write_block(t: &Tables, record: &mut Record, input: &Input) -> Vec<u8> {
    assert_eq!(input.main.len(), MAIN);
    input.block().chunks(SECTOR).flat_map(|sector| write_sector(t, record, sector).0).collect()
}
