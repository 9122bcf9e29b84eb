//! What pictures are made of: pixels, words, the lines of a legend, and the PNG.
use crate::font;

pub type Colour = [u8; 3];

pub const WHITE: Colour = [0xFF, 0xFF, 0xFF];
pub const INK: Colour = [0x20, 0x20, 0x20];
/// What is as it should be, and what is lost.
pub const GREY: Colour = [0xED, 0xED, 0xED];
pub const VERMILION: Colour = [0xD5, 0x5E, 0x00];

/// Pixels of a square's side.
pub const CELL: usize = 4;
/// Pixels from one line of a legend to the next, and of a colour's side in it.
pub const LINE: usize = 22;
pub const SAMPLE: usize = 14;

pub struct Canvas {
    width: usize,
    pixels: Vec<u8>,
}

impl Canvas {
    pub fn new(width: usize, height: usize) -> Self {
        let pixels = WHITE.repeat(width * height);
        Canvas { width, pixels }
    }

    pub fn fill(&mut self, x: usize, y: usize, width: usize, height: usize, colour: Colour) {
        for line in y..y + height {
            let start = 3 * (self.width * line + x);
            let pixels = self.pixels[start..start + 3 * width].chunks_mut(3);
            pixels.for_each(|pixel| pixel.copy_from_slice(&colour));
        }
    }

    /// A text, each dot of its letters `scale` pixels wide.
    pub fn text(&mut self, x: usize, y: usize, scale: usize, text: &str) {
        for (k, (column, row)) in font::dots(text) {
            let at = x + scale * (font::ADVANCE * k + column);
            self.fill(at, y + scale * row, scale, scale, INK);
        }
    }

    /// A line of a legend: the colour, and what it says.
    pub fn entry(&mut self, x: usize, y: usize, colour: Colour, words: &str) {
        self.fill(x, y, SAMPLE, SAMPLE, colour);
        self.text(x + LINE, y, 2, words);
    }

    /// A tick of a scale that stands at the left of x, with its number.
    pub fn tick_at_left(&mut self, x: usize, y: usize, number: u64) {
        let text = number.to_string();
        self.fill(x - 6, y, 4, 1, INK);
        self.text(x - 10 - font::ADVANCE * text.len(), y, 1, &text);
    }

    /// The picture as a PNG.
    pub fn png(&self) -> Vec<u8> {
        self.encode()
            .expect("a picture in memory takes all its pixels")
    }

    fn encode(&self) -> Result<Vec<u8>, png::EncodingError> {
        let mut out = Vec::new();
        let height = self.pixels.len() / 3 / self.width;
        let (width, height) = (u32::try_from(self.width), u32::try_from(height));
        let sizes = (width.expect("it is small"), height.expect("it is small"));
        let mut encoder = png::Encoder::new(&mut out, sizes.0, sizes.1);
        encoder.set_color(png::ColorType::Rgb);
        encoder.set_depth(png::BitDepth::Eight);
        let mut writer = encoder.write_header()?;
        writer.write_image_data(&self.pixels)?;
        writer.finish()?;
        Ok(out)
    }
}

#[cfg(test)]
mod tests {
    use super::*;

    impl Canvas {
        pub fn at(&self, x: usize, y: usize) -> Colour {
            let pixel = &self.pixels[3 * (self.width * y + x)..][..3];
            pixel.try_into().expect("a pixel is three bytes")
        }

        /// So many letters that stand in the picture from a place on, read one by one as an eye would.
        pub fn letters_at(&self, x: usize, y: usize, scale: usize, count: usize) -> String {
            let letter = |k: usize| {
                let at = x + scale * font::ADVANCE * k;
                font::tests::letter_of(std::array::from_fn(|column| {
                    (0..8).fold(0, |dots, row| {
                        let is_inked = self.at(at + scale * column, y + scale * row) == INK;
                        dots | u8::from(is_inked) << row
                    })
                }))
            };
            (0..count).map(|k| letter(k).expect("a letter")).collect()
        }

        /// The text that stands there, up to the right end of the picture.
        pub fn text_at(&self, x: usize, y: usize, scale: usize) -> String {
            let room = (self.width - x) / (scale * font::ADVANCE);
            let text = self.letters_at(x, y, scale, room);
            text.trim_end().to_owned()
        }
    }
}
