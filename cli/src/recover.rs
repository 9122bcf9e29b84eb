//! `recover`: a stream back to its image. A block that is refused with its marks is read a second time without: a row with more than ten unknown words is past help
//! by its marks, and can be nearly right without, since an unknown word is read as 0, which its byte may be (request 2). EDC judges both readings.
use crate::arguments::Recover;
use crate::failure::Failure;
use crate::handout::{self, Handed};
use crate::input::Input;
use crate::pieces::{of_stream, Piece};
use crate::reading::Reading;
use crate::sheet::{line, read, Answer};
use crate::Ending;

/// The block read with its marks, and where a frame of it is refused once more without, unless that is forbidden. Where both are refused the first counts. With
/// it what is told where it is read without marks.
fn recovered(piece: &Piece, is_strict: bool) -> (Answer, Option<String>) {
    let answer = read(piece);
    let again = piece.bytes[..].try_into().ok().filter(|_| !is_strict);
    let (Err(with_marks), Some(stream)) = (&answer.read, again) else {
        return (answer, None);
    };
    let Ok(read) = Reading::of(stream).without_marks().repaired() else {
        return (answer, None);
    };
    let (block, refused) = (answer.block, line(&Err(*with_marks)));
    let told = format!("block {block} is read without marks: {refused} with them");
    let read = Ok(read);
    (Answer { read, ..answer }, Some(told))
}

fn handed(piece: &Piece, is_strict: bool) -> Handed {
    let (answer, told) = recovered(piece, is_strict);
    Handed {
        line: line(&answer.read),
        count: told.is_some().into(),
        told,
        answer,
    }
}

/// The blocks read without marks, only where there are any, so that whoever reads the counts before them finds each in its place.
fn counted(unmarked: u64) -> String {
    match unmarked {
        0 => String::new(),
        _ => format!(" unmarked {unmarked}"),
    }
}

pub fn run(chosen: &Recover) -> Result<Ending, Failure> {
    let stream = Input::open(&chosen.stream)?;
    let (length, is_strict) = (stream.length, chosen.strict);
    let read = move |piece: Piece| handed(&piece, is_strict);
    handout::run(&chosen.handout, length, of_stream(stream), read, counted)
}
