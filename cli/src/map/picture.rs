//! The picture of a block.
use chamanzil::{BLOCK, ROW};

use super::damage::{Class, Damage, CLASSES};
use crate::canvas::{Canvas, Colour, GREY, INK, LINE, SAMPLE, VERMILION};

pub use crate::canvas::CELL;

const PAST_HELP: Colour = [0xCC, 0x79, 0xA7];
const MARK: Colour = [0x00, 0x00, 0x00];

/// Pixels of a byte's side in which its class shows around a mark.
const AROUND: usize = 1;
/// Where the first byte's pixels begin.
pub const LEFT: usize = 36;
pub const TOP: usize = 24;
const ROWS: usize = BLOCK / ROW;
const RIGHT: usize = LEFT + CELL * ROW;
const BOTTOM: usize = TOP + CELL * ROWS;
/// Pixels between the bytes and what is past help beside them, and how broad that is.
const GAP: usize = 4;
const STRIP: usize = 8;
const LEGEND: usize = BOTTOM + GAP + STRIP + 16;
/// Pixels around a mark in the legend.
const SAMPLE_AROUND: usize = 4;
pub const WIDTH: usize = RIGHT + LEFT;
/// Below the bytes: the classes, the marks, rows and columns past help, the sheet's line.
pub const HEIGHT: usize = LEGEND + (CLASSES.len() + 4) * LINE + 8;

impl Class {
    /// Colours that people with colour blindness tell apart (Okabe and Ito), in greys where nothing was put right.
    fn colour(self) -> Colour {
        match self {
            Class::Right => GREY,
            Class::Row => [0x00, 0x9E, 0x73],
            Class::Column => [0x00, 0x72, 0xB2],
            Class::Wrong => VERMILION,
        }
    }

    fn legend(self, is_refused: bool) -> &'static str {
        match self {
            Class::Right if is_refused => "as read",
            Class::Right => "read right",
            Class::Row => "corrected by its row",
            Class::Column => "corrected by its column",
            Class::Wrong => "wrong still",
        }
    }
}

impl Canvas {
    /// The mark in the middle of a square, whose own colour shows around it.
    fn mark(&mut self, x: usize, y: usize, side: usize, around: usize) {
        let middle = side - 2 * around;
        self.fill(x + around, y + around, middle, middle, MARK);
    }

    fn bytes(&mut self, damage: &Damage) {
        for (i, byte) in damage.bytes.iter().enumerate() {
            let (x, y) = (LEFT + CELL * (i % ROW), TOP + CELL * (i / ROW));
            self.fill(x, y, CELL, CELL, byte.class.colour());
            if byte.is_marked {
                self.mark(x, y, CELL, AROUND);
            }
        }
    }

    fn past_help(&mut self, damage: &Damage) {
        let places = |all: &[bool]| -> Vec<usize> { (0..all.len()).filter(|i| all[*i]).collect() };
        for row in places(&damage.rows_past_help) {
            self.fill(RIGHT + GAP, TOP + CELL * row, STRIP, CELL, PAST_HELP);
        }
        for column in places(&damage.columns_past_help) {
            self.fill(LEFT + CELL * column, BOTTOM + GAP, CELL, STRIP, PAST_HELP);
        }
    }

    /// The sectors at the left, 13 rows each; above, the places at which the Sync Frames of a row and its parity begin.
    fn scales(&mut self) {
        for (sector, y) in (0..16).zip((TOP..).step_by(CELL * 13)) {
            self.tick_at_left(LEFT, y, sector);
        }
        for place in [0, 91, 172] {
            let x = LEFT + CELL * place;
            self.fill(x, TOP - 6, 1, 4, INK);
            self.text(x, TOP - 16, 1, &place.to_string());
        }
    }

    fn legend(&mut self, damage: &Damage) {
        let count = |all: &[bool]| all.iter().filter(|past| **past).count();
        let is_refused = damage.refusal.is_some();
        let classes = CLASSES.map(|class| {
            (
                class.colour(),
                damage.count(class),
                class.legend(is_refused),
            )
        });
        let marks = (
            Class::Right.colour(),
            damage.marks(),
            "marked, its word is unknown",
        );
        let rows = (
            PAST_HELP,
            count(&damage.rows_past_help),
            "rows past help, at the right",
        );
        let columns = (
            PAST_HELP,
            count(&damage.columns_past_help),
            "columns past help, below",
        );
        let mut y = LEGEND;
        for (colour, number, words) in classes.into_iter().chain([marks, rows, columns]) {
            self.entry(LEFT, y, colour, &format!("{number} {words}"));
            y += LINE;
        }
        let of_marks = LEGEND + LINE * CLASSES.len();
        self.mark(LEFT, of_marks, SAMPLE, SAMPLE_AROUND);
        self.text(LEFT, y, 2, &damage.line);
    }
}

/// The picture as a PNG.
pub fn draw(damage: &Damage) -> Vec<u8> {
    let mut canvas = Canvas::new(WIDTH, HEIGHT);
    canvas.bytes(damage);
    canvas.past_help(damage);
    canvas.scales();
    canvas.legend(damage);
    canvas.png()
}

#[cfg(test)]
mod tests {
    use super::*;
    use chamanzil::{format_block, MAIN, STREAM};

    static SEVENS: [u8; MAIN] = [7; MAIN];
    static LOST: [u8; STREAM] = [0; STREAM];

    /// What stands below the bytes: each class with its colour and count, the marks, rows and columns past help, and the sheet's line.
    fn reads(stream: &[u8; STREAM], due: [&str; 8]) {
        let damage = Damage::of(stream);
        let mut canvas = Canvas::new(WIDTH, HEIGHT);
        canvas.legend(&damage);
        for (k, line) in due[..7].iter().enumerate() {
            assert_eq!(canvas.text_at(LEFT + LINE, LEGEND + LINE * k, 2), *line);
        }
        assert_eq!(canvas.text_at(LEFT, LEGEND + LINE * 7, 2), due[7]);
        let colour_at = |k: usize, of: usize| canvas.at(LEFT + of, LEGEND + LINE * k + of);
        for (k, class) in CLASSES.into_iter().enumerate() {
            assert_eq!([colour_at(k, 0), colour_at(k, 7)], [class.colour(); 2]);
        }
        assert_eq!(colour_at(4, 0), Class::Right.colour());
        assert_eq!(colour_at(4, 7), MARK);
    }

    #[test]
    fn the_legend_of_a_block_that_is_read() {
        let mut stream = format_block(&SEVENS, 0x03_0000, 0).unwrap();
        stream[14..16].fill(0xFF);
        reads(
            &stream,
            [
                "37855 read right",
                "1 corrected by its row",
                "0 corrected by its column",
                "0 wrong still",
                "1 marked, its word is unknown",
                "0 rows past help, at the right",
                "0 columns past help, below",
                "block 030000 rows 1 0 columns 0 0 unknown 1 sync 0",
            ],
        );
    }

    #[test]
    fn the_legend_of_a_block_that_is_refused() {
        reads(
            &LOST,
            [
                "35776 as read",
                "0 corrected by its row",
                "0 corrected by its column",
                "2080 wrong still",
                "37856 marked, its word is unknown",
                "208 rows past help, at the right",
                "0 columns past help, below",
                "refused 6 frame 0",
            ],
        );
    }
}
