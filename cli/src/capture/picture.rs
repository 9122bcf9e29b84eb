//! The picture of a capture: which of its bits are in frames. It runs through the squares from left to right and from top to bottom, and fills them all, however
//! long it is: each square has the same share of its bits.
use chamanzil::{Captured, Stretch};

use crate::canvas::{Canvas, Colour, CELL, GREY, INK, LINE, SAMPLE, VERMILION};
use crate::{failure, font};

/// Each row has a hundredth of the capture.
const ROWS: usize = 100;
/// Squares of a row.
const PLACES: usize = 200;
/// Squares in all. A bit counts as so many parts, so that each square has a whole number of them: as many as the capture has bits.
const SQUARES: u64 = (PLACES * ROWS) as u64;

/// Where the first square's pixels begin. At its left is room for the number of any bit.
const LEFT: usize = 100;
const TOP: usize = 24;
const RIGHT: usize = LEFT + CELL * PLACES;
const BOTTOM: usize = TOP + CELL * ROWS;
const LEGEND: usize = BOTTOM + 24;
const WIDTH: usize = RIGHT + LEFT;
/// Below the squares: what is in frames, squares of both, what is in none, the capture's length, the counts.
const HEIGHT: usize = LEGEND + 5 * LINE + 8;

fn bits_of(length: usize) -> u64 {
    8 * length as u64
}

/// For each square the parts of bits that are in no frame.
fn lost(bits: u64, stretches: &[Stretch]) -> Vec<u64> {
    let mut lost = vec![0; PLACES * ROWS];
    for stretch in stretches {
        let mut at = SQUARES * stretch.start;
        let end = at + SQUARES * stretch.bits;
        while at < end {
            let square = at / bits;
            let next = end.min(bits * (square + 1));
            lost[usize::try_from(square).expect("there are 20,000")] += next - at;
            at = next;
        }
    }
    lost
}

/// The colour of a square of which so many parts of all are in no frame. The least loss is half way to the colour of a lost square, so that it is seen at a glance.
fn shade(lost: u64, all: u64) -> Colour {
    if lost == 0 {
        return GREY;
    }
    std::array::from_fn(|k| {
        let (grey, vermilion) = (u64::from(GREY[k]), u64::from(VERMILION[k]));
        let mixed = ((all - lost) * grey + (all + lost) * vermilion) / (2 * all);
        u8::try_from(mixed).expect("it is between two bytes")
    })
}

/// A box around the squares, which is all that an empty capture shows.
fn draw_box(canvas: &mut Canvas) {
    let (width, height) = (RIGHT - LEFT + 2, BOTTOM - TOP + 2);
    canvas.fill(LEFT - 1, TOP - 1, width, 1, INK);
    canvas.fill(LEFT - 1, BOTTOM, width, 1, INK);
    canvas.fill(LEFT - 1, TOP - 1, 1, height, INK);
    canvas.fill(RIGHT, TOP - 1, 1, height, INK);
}

fn draw_squares(canvas: &mut Canvas, bits: u64, lost: &[u64]) {
    for (k, lost) in lost.iter().enumerate() {
        let (x, y) = (LEFT + CELL * (k % PLACES), TOP + CELL * (k / PLACES));
        canvas.fill(x, y, CELL, CELL, shade(*lost, bits));
    }
}

/// At the left the bit with which each tenth row begins, and at its end how many there are.
fn draw_scale(canvas: &mut Canvas, bits: u64) {
    canvas.text(LEFT - 10 - 3 * font::ADVANCE, TOP - 16, 1, "bit");
    for (tenth, y) in (0..=10).zip((TOP..).step_by(CELL * ROWS / 10)) {
        canvas.tick_at_left(LEFT, y, tenth * bits / 10);
    }
}

fn draw_legend(canvas: &mut Canvas, length: usize, lost: &[u64], captured: &Captured) {
    let bits = bits_of(length);
    let none: u64 = captured.stretches.iter().map(|stretch| stretch.bits).sum();
    let both = lost.iter().filter(|lost| (1..bits).contains(*lost)).count();
    let entries = [
        format!("{} bits in frames", bits - none),
        format!("{both} squares with some bits in no frame, darker for more"),
        format!("{none} bits in no frame"),
    ];
    let colours = [GREY, VERMILION, VERMILION];
    let lines = (LEGEND..).step_by(LINE);
    for ((words, colour), y) in entries.iter().zip(colours).zip(lines) {
        canvas.entry(LEFT, y, colour, words);
    }
    for (share, x) in (1..).zip(LEFT..LEFT + SAMPLE) {
        canvas.fill(x, LEGEND + LINE, 1, SAMPLE, shade(share, SAMPLE as u64));
    }
    let words = format!("each row a hundredth of {}", failure::bytes(length));
    canvas.text(LEFT, LEGEND + 3 * LINE, 2, &words);
    canvas.text(LEFT, LEGEND + 4 * LINE, 2, &super::counts(captured));
}

/// The picture of a capture of so many bytes, as a PNG.
pub fn draw(length: usize, captured: &Captured) -> Vec<u8> {
    drawn(length, captured).png()
}

fn drawn(length: usize, captured: &Captured) -> Canvas {
    let mut canvas = Canvas::new(WIDTH, HEIGHT);
    let bits = bits_of(length);
    let lost = lost(bits, &captured.stretches);
    draw_box(&mut canvas);
    if bits > 0 {
        draw_squares(&mut canvas, bits, &lost);
        draw_scale(&mut canvas, bits);
    }
    draw_legend(&mut canvas, length, &lost, captured);
    canvas
}

#[cfg(test)]
mod tests {
    use super::*;
    use crate::canvas::WHITE;
    use chamanzil::CAPTURE;

    /// Bytes of a disc's side.
    const SIDE: usize = 3_447_537_284;

    /// The picture of a capture of so many bytes with these stretches, each a start and a length in bits.
    fn picture(length: usize, stretches: &[(u64, u64)]) -> Canvas {
        let stretches = stretches.iter().map(|(start, bits)| Stretch {
            start: *start,
            bits: *bits,
        });
        let captured = Captured {
            bytes: Vec::new(),
            frames: 17,
            stretches: stretches.collect(),
        };
        drawn(length, &captured)
    }

    /// The squares that have another colour than those in frames, with that colour.
    fn squares(canvas: &Canvas) -> Vec<(usize, Colour)> {
        let colour = |k: usize| canvas.at(LEFT + CELL * (k % PLACES), TOP + CELL * (k / PLACES));
        let all = (0..PLACES * ROWS).map(|k| (k, colour(k)));
        all.filter(|(_, colour)| *colour != GREY).collect()
    }

    #[test]
    fn a_square_has_a_part_of_a_bit() {
        // bits 3 and 4 of 8
        let due: Vec<_> = (7_500..12_500).map(|k| (k, VERMILION)).collect();
        assert_eq!(squares(&picture(1, &[(3, 2)])), due);
    }

    #[test]
    fn stretches_in_any_order_share_a_square() {
        // ten bits a square, of which five are in no frame
        let canvas = picture(25_000, &[(207, 3), (199, 2), (203, 1)]);
        let half = [0xDB, 0x81, 0x3B];
        assert_eq!(shade(1, 2), half);
        assert_eq!(squares(&canvas), [(19, shade(1, 10)), (20, half)]);
    }

    /// A frame is less than a thousandth of a square there.
    #[test]
    fn a_frame_that_a_side_has_lost_is_seen() {
        let canvas = picture(SIDE, &[(bits_of(SIDE) / 2 + 1, 1_488)]);
        assert_eq!(squares(&canvas), [(10_000, [0xE0, 0xA5, 0x76])]);
    }

    #[test]
    fn the_first_and_the_last_bit_of_the_longest_capture() {
        let length = usize::try_from(CAPTURE).unwrap();
        let bits = bits_of(length);
        let seen = squares(&picture(length, &[(bits - 1, 1), (0, 1)]));
        let places: Vec<usize> = seen.iter().map(|(k, _)| *k).collect();
        assert_eq!(places, [0, 19_999]);
        let all = squares(&picture(length, &[(0, bits)]));
        assert_eq!(all.len(), 20_000);
        assert!(all.iter().all(|(_, colour)| *colour == VERMILION));
    }

    #[test]
    fn the_scale_tells_the_bits_of_rows() {
        let canvas = picture(SIDE, &[]);
        for (row, bit) in [(0, "0"), (10, "2758029827"), (50, "13790149136")] {
            let (x, y) = (LEFT - 10 - font::ADVANCE * bit.len(), TOP + CELL * row);
            assert_eq!(canvas.letters_at(x, y, 1, bit.len()), bit);
        }
        let bits = "27580298272";
        let x = LEFT - 10 - font::ADVANCE * bits.len();
        assert_eq!(canvas.letters_at(x, BOTTOM, 1, bits.len()), bits);
    }

    /// What stands below the squares: what is in frames, squares of both and what is in none, each with its colour, the capture's length and the counts.
    fn reads(canvas: &Canvas, due: [&str; 5]) {
        for (k, line) in due.into_iter().enumerate() {
            let x = if k < 3 { LEFT + LINE } else { LEFT };
            assert_eq!(canvas.text_at(x, LEGEND + LINE * k, 2), line);
        }
        let colour_at = |k: usize, x: usize| canvas.at(LEFT + x, LEGEND + LINE * k + 7);
        let ends = [0, 1, 2].map(|k| [colour_at(k, 0), colour_at(k, SAMPLE - 1)]);
        let of_both = [shade(1, SAMPLE as u64), VERMILION];
        assert_eq!(ends, [[GREY; 2], of_both, [VERMILION; 2]]);
    }

    #[test]
    fn the_legend_of_a_capture() {
        reads(
            &picture(20_000, &[(4, 5), (80, 16), (159_999, 1)]),
            [
                "159978 bits in frames",
                "3 squares with some bits in no frame, darker for more",
                "22 bits in no frame",
                "each row a hundredth of 20000 bytes",
                "frames 17 stretches 3",
            ],
        );
    }

    #[test]
    fn the_legend_of_an_empty_capture() {
        let canvas = picture(0, &[]);
        reads(
            &canvas,
            [
                "0 bits in frames",
                "0 squares with some bits in no frame, darker for more",
                "0 bits in no frame",
                "each row a hundredth of 0 bytes",
                "frames 17 stretches 0",
            ],
        );
        let white: Vec<_> = (0..20_000).map(|k| (k, WHITE)).collect();
        assert_eq!(squares(&canvas), white);
    }
}
