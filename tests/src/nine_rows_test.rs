//! Nine heavy rows may be one too many (document 02, request 11; crates/theorems/proofs/NineRows.antt), by the library and the second implementation: rows of another
//! block's stream in the place of a block's own. Two blocks that differ in seventeen rows are nine rows apart and eight.
use crate::block::{block, MAIN};
use crate::blocks_test::accepted;
use crate::damage::heavy_rows;
use crate::light_test::other_than_0;
use crate::random::Random;
use crate::reach_test::lightest;
use crate::readers_test::compare;
use crate::reading::Reader;
use crate::report::Report;
use crate::tables::Tables;
use crate::writing::permitted_stream;

/// A row of the stream is two Sync Frames.
const ROW_STREAM: usize = 372;

/// Two blocks with one first number, the main data and a permitted stream of each, and the rows in which they differ.
struct Pair {
    first: u32,
    mains: [Vec<u8>; 2],
    streams: [Vec<u8>; 2],
    rows: Vec<usize>,
}

impl Pair {
    fn new(random: &mut Random, t: &Tables, mains: [Vec<u8>; 2]) -> Pair {
        let (first, info) = accepted(random);
        let blocks = mains.each_ref().map(|main| block(main, first, info));
        let streams = blocks.each_ref().map(|made| permitted_stream(t, made, random).unwrap());
        let rows = blocks[0].chunks(182).zip(blocks[1].chunks(182)).enumerate().filter(|(_, (a, b))| a != b).map(|(row, _)| row).collect();
        Pair { first, mains, streams, rows }
    }

    /// The first stream with so many of these rows as the second has them.
    fn mixed(&self, random: &mut Random, count: usize) -> Vec<u8> {
        let mut stream = self.streams[0].clone();
        for at in random.places(self.rows.len(), count) {
            let place = ROW_STREAM * self.rows[at]..ROW_STREAM * (self.rows[at] + 1);
            stream[place.clone()].copy_from_slice(&self.streams[1][place]);
        }
        stream
    }
}

/// A byte of the last row of a frame is another, or eleven of them, so that only as few bytes differ as can be.
fn pair(random: &mut Random, t: &Tables, is_lightest: bool) -> Pair {
    let (main, frame) = (random.bytes(MAIN), random.below(16));
    let mut other = if is_lightest { lightest(&main, frame) } else { main.clone() };
    if !is_lightest {
        other[2_048 * frame + 1_880 + random.below(168)] ^= other_than_0(random);
    }
    Pair::new(random, t, [main, other])
}

/// With eight rows of the other block the block itself is read, with nine the other block, and all checks pass.
pub fn all(report: &mut Report, random: &mut Random, t: &Tables, reader: &Reader, count: usize) {
    report.begin("readers: eight and nine rows of another block");
    for i in 0..count {
        let pair = pair(random, t, i % 2 == 1);
        report.check(pair.rows.len() == 17, || format!("{} rows differ", pair.rows.len()));
        for (taken, read) in [(8, 0), (9, 1), (random.below(8), 0), (10 + random.below(8), 1)] {
            let stream = pair.mixed(random, taken);
            let heavy = heavy_rows(&pair.streams[0], &stream);
            report.check(heavy == taken, || format!("{taken} rows of the other block, {heavy} heavy ones"));
            let (ours, _) = compare(report, random, reader, &stream);
            report.check(ours.is_handed_out(&pair.mains[read], pair.first), || format!("{taken} rows of the other block: {}", ours.told()));
        }
    }
    report.end();
}
