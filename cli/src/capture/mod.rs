//! `capture`: the frames of a capture, wherever it begins and however often its clock slipped, and the bits that are in no frame.
mod picture;

use std::path::Path;

use chamanzil::{read_capture, Captured, Refusal, Stretch, CAPTURE};

use crate::arguments::Capture;
use crate::failure::{Failure, Refused};
use crate::input::Input;
use crate::output::{self, Output};
use crate::progress::Progress;
use crate::{say, Ending};

/// Stretches whose lines are written at once.
const BATCH: usize = 4_096;

fn refused(refusal: Refusal) -> Refused {
    let is_length = refusal == Refusal::Length;
    Refused {
        refusal,
        block: None,
        words: is_length.then(|| format!("the capture has more than {CAPTURE} bytes")),
    }
}

/// The bytes of the capture. A file that the library will refuse for its length is not read first: there is hardly a machine with room for it.
fn bytes_of(capture: &Input) -> Result<Vec<u8>, Failure> {
    if capture.length > Some(CAPTURE) {
        return Err(refused(Refusal::Length).into());
    }
    capture.whole()
}

/// The last line, which the picture has too.
fn counts(captured: &Captured) -> String {
    let (frames, stretches) = (captured.frames, captured.stretches.len());
    format!("frames {frames} stretches {stretches}")
}

/// The frames' bytes, and the stretches and the picture where they are asked for.
struct Outputs {
    bytes: Output,
    stretches: Option<Output>,
    map: Option<Output>,
}

impl Outputs {
    fn create(chosen: &Capture) -> Result<Self, Failure> {
        let (stretches, map) = (chosen.stretches.as_deref(), chosen.map.as_deref());
        output::distinct(&[
            ("--output", Some(&chosen.output)),
            ("--stretches", stretches),
            ("--map", map),
        ])?;
        let create = |path: Option<&Path>| path.map(Output::create).transpose();
        Ok(Outputs {
            bytes: Output::create(&chosen.output)?,
            stretches: create(stretches)?,
            map: create(map)?,
        })
    }

    /// A line for each stretch, in the library's order, which is open until request 10.
    fn write_stretches(&mut self, stretches: &[Stretch]) -> Result<(), Failure> {
        let Some(output) = &mut self.stretches else {
            return Ok(());
        };
        let line = |stretch: &Stretch| format!("{}\t{}\n", stretch.start, stretch.bits);
        for some in stretches.chunks(BATCH) {
            let lines: String = some.iter().map(line).collect();
            output.write(lines.as_bytes())?;
        }
        Ok(())
    }

    /// What is had of a capture of so many bytes.
    fn hand_out(mut self, length: usize, captured: &Captured) -> Result<(), Failure> {
        self.bytes.write(&captured.bytes)?;
        self.write_stretches(&captured.stretches)?;
        if let Some(map) = &mut self.map {
            map.write(&picture::draw(length, captured))?;
        }
        let outputs = [Some(self.bytes), self.stretches, self.map];
        output::finish(outputs.into_iter().flatten().collect())
    }
}

pub fn run(chosen: &Capture) -> Result<Ending, Failure> {
    let capture = Input::open(&chosen.file)?;
    let outputs = Outputs::create(chosen)?;
    let progress = Progress::turning("reading the capture");
    let bytes = bytes_of(&capture)?;
    let captured = read_capture(&bytes).map_err(refused)?;
    outputs.hand_out(bytes.len(), &captured)?;
    drop(progress);
    say(counts(&captured));
    Ok(Ending::Done)
}
