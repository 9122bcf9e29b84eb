//! The picture of a capture: the colours of its squares, as they are drawn and as they follow from the stretches.
use super::picture::{Picture, CELL, TOP};

/// Squares of a row, and in all.
const PLACES: usize = 200;
pub const SQUARES: usize = 20_000;
/// Where the first of them begins.
const LEFT: usize = 100;

/// Colours of a square: all its bits in frames, half of them, none.
pub const IN_FRAMES: [u8; 3] = [0xED, 0xED, 0xED];
pub const HALF: [u8; 3] = [0xDB, 0x81, 0x3B];
pub const IN_NONE: [u8; 3] = [0xD5, 0x5E, 0x00];

/// The colours of a picture's squares, each of which has one.
pub fn squares(png: &[u8]) -> Vec<[u8; 3]> {
    let picture = Picture::new(png);
    assert_eq!((picture.width, picture.height), (1_000, 566));
    let colour = |k: usize| {
        let (x, y) = (LEFT + CELL * (k % PLACES), TOP + CELL * (k / PLACES));
        picture.colour_of(x, y, CELL, CELL)
    };
    (0..SQUARES).map(colour).collect()
}

/// A colour between grey and vermilion, where so many of all bits are in no frame: from half way on, if any is.
fn mixed(lost: usize, all: usize) -> [u8; 3] {
    let way = if lost == 0 { 0 } else { all + lost };
    [0, 1, 2].map(|k| {
        let (grey, vermilion) = (usize::from(IN_FRAMES[k]), usize::from(IN_NONE[k]));
        u8::try_from((grey * (2 * all - way) + vermilion * way) / (2 * all)).unwrap()
    })
}

/// The colours due for a capture of so many bits with these stretches, each a start and a length: square k has the bits from k 20,000ths of all on.
pub fn squares_due(bits: usize, stretches: &[(usize, usize)]) -> Vec<[u8; 3]> {
    let lost_in = |k: usize| {
        let parts = stretches.iter().map(|(start, length)| {
            let from = (SQUARES * start).max(k * bits);
            let to = (SQUARES * (start + length)).min((k + 1) * bits);
            to.saturating_sub(from)
        });
        parts.sum()
    };
    (0..SQUARES).map(|k| mixed(lost_in(k), bits)).collect()
}
