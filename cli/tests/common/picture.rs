//! Pictures: a PNG's pixels, and where a map has its cells, marks and strips.
use super::cells::Cells;
use chamanzil::{COLUMN, ROW, ROW_DATA};

pub const LEFT: usize = 36;
pub const TOP: usize = 24;
/// Pixels of a cell, each way.
pub const CELL: usize = 4;
const PAST_HELP: [u8; 3] = [0xCC, 0x79, 0xA7];
/// The middle of a cell whose byte is marked.
const MARK: [u8; 3] = [0x00, 0x00, 0x00];
pub const WHITE: [u8; 3] = [0xFF, 0xFF, 0xFF];

pub struct Picture {
    pub width: usize,
    pub height: usize,
    pixels: Vec<[u8; 3]>,
}

impl Picture {
    /// A PNG of 8-bit RGB.
    pub fn new(png: &[u8]) -> Self {
        let mut reader = png::Decoder::new(png).read_info().unwrap();
        let mut bytes = vec![0; reader.output_buffer_size()];
        let info = reader.next_frame(&mut bytes).unwrap();
        let kind = (info.color_type, info.bit_depth);
        assert_eq!(kind, (png::ColorType::Rgb, png::BitDepth::Eight));
        let pixels: Vec<[u8; 3]> = bytes
            .chunks_exact(3)
            .map(|p| p.try_into().unwrap())
            .collect();
        let (width, height) = (info.width as usize, info.height as usize);
        assert_eq!(pixels.len(), width * height);
        Picture {
            width,
            height,
            pixels,
        }
    }

    pub fn at(&self, x: usize, y: usize) -> [u8; 3] {
        assert!(
            x < self.width && y < self.height,
            "({x}, {y}) is outside the picture"
        );
        self.pixels[y * self.width + x]
    }

    /// The one colour of a rectangle.
    #[track_caller]
    pub fn colour_of(&self, x: usize, y: usize, width: usize, height: usize) -> [u8; 3] {
        let colour = self.at(x, y);
        for dy in 0..height {
            for dx in 0..width {
                assert_eq!(
                    self.at(x + dx, y + dy),
                    colour,
                    "at ({}, {})",
                    x + dx,
                    y + dy
                );
            }
        }
        colour
    }

    /// The colour around a cell's middle, and that of its middle.
    fn cell(&self, row: usize, place: usize) -> [[u8; 3]; 2] {
        let (x, y) = (LEFT + CELL * place, TOP + CELL * row);
        let rim = [
            (x, y, CELL, 1),
            (x, y + CELL - 1, CELL, 1),
            (x, y, 1, CELL),
            (x + CELL - 1, y, 1, CELL),
        ];
        let around = rim.map(|(x, y, width, height)| self.colour_of(x, y, width, height));
        assert_eq!(around, [around[0]; 4], "row {row}, place {place}");
        let middle = self.colour_of(x + 1, y + 1, CELL - 2, CELL - 2);
        [around[0], middle]
    }

    fn row_strip(&self, row: usize) -> [u8; 3] {
        self.colour_of(LEFT + CELL * ROW + CELL, TOP + CELL * row, 2 * CELL, CELL)
    }

    fn column_strip(&self, place: usize) -> [u8; 3] {
        self.colour_of(
            LEFT + CELL * place,
            TOP + CELL * COLUMN + CELL,
            CELL,
            2 * CELL,
        )
    }

    /// Every cell has its class's colour, a black middle where its byte is marked, and every row and column past help its strip.
    #[track_caller]
    pub fn shows(&self, cells: &Cells) {
        for (i, class) in cells.classes.iter().enumerate() {
            let (row, place) = (i / ROW, i % ROW);
            let around = class.colour();
            let middle = if cells.is_marked(i) { MARK } else { around };
            assert_eq!(
                self.cell(row, place),
                [around, middle],
                "row {row}, place {place}: {class:?}"
            );
        }
        let strip = |is_past_help: bool| if is_past_help { PAST_HELP } else { WHITE };
        for (row, is_past_help) in cells.is_row_past_help.into_iter().enumerate() {
            assert_eq!(self.row_strip(row), strip(is_past_help), "row {row}");
        }
        for place in 0..ROW {
            let is_past_help = place < ROW_DATA && cells.is_column_past_help[place];
            assert_eq!(
                self.column_strip(place),
                strip(is_past_help),
                "column {place}"
            );
        }
    }

    /// Whether something other than background stands below the cells and the strips.
    pub fn has_a_legend(&self) -> bool {
        let from = TOP + CELL * COLUMN + 4 * CELL;
        self.pixels[from * self.width..]
            .iter()
            .any(|pixel| *pixel != WHITE)
    }
}
