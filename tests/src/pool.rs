//! Two readings of one block pooled before repair, the second implementation (document 02, request 8), and which of their rows the row repair has to bring back.
use crate::block::BLOCK;

const ROW: usize = 182;

/// A reading as it is lent: bytes, and beside them marks, 1 or 0.
#[derive(Clone, PartialEq, Eq)]
pub struct Lent {
    pub bytes: Vec<u8>,
    pub erasures: Vec<u8>,
}

/// A reading as it is meant: the byte of each place, or none where it is marked.
type Reading = Vec<Option<u8>>;

impl Lent {
    /// These bytes, none of them marked.
    pub fn unmarked(bytes: &[u8]) -> Lent {
        Lent { bytes: bytes.to_vec(), erasures: vec![0; bytes.len()] }
    }

    fn reading(&self) -> Reading {
        self.bytes.iter().zip(&self.erasures).map(|(&byte, &mark)| (mark == 0).then_some(byte)).collect()
    }

    /// Byte 0 at marked places.
    fn of(reading: &[Option<u8>]) -> Lent {
        Lent {
            bytes: reading.iter().map(|place| place.unwrap_or(0)).collect(),
            erasures: reading.iter().map(|place| u8::from(place.is_none())).collect(),
        }
    }
}

/// Numbers 1 and 11, or 0.
fn refusal(readings: [&Lent; 2]) -> u32 {
    if readings.iter().any(|lent| lent.bytes.len() != BLOCK || lent.erasures.len() != BLOCK) {
        return 1;
    }
    if readings.iter().any(|lent| lent.erasures.iter().any(|&mark| mark > 1)) {
        return 11;
    }
    0
}

/// What stands at a place: what both have there, or else the byte that just one of them has.
fn pooled(one: Option<u8>, other: Option<u8>) -> Option<u8> {
    if one == other {
        one
    } else {
        one.xor(other)
    }
}

/// What the first reading becomes, or the number.
pub fn pool(first: &Lent, second: &Lent) -> Result<Lent, u32> {
    match refusal([first, second]) {
        0 => {
            let places = first.reading().into_iter().zip(second.reading());
            Ok(Lent::of(&places.map(|(one, other)| pooled(one, other)).collect::<Reading>()))
        }
        number => Err(number),
    }
}

/// A row as the theorem asks: every place is right and unmarked in at least one reading, and the two have at most ten unmarked wrong bytes together.
fn is_as_asked(right: &[u8], one: &[Option<u8>], other: &[Option<u8>]) -> bool {
    let is_right = |at: usize| [one[at], other[at]].contains(&Some(right[at]));
    let is_wrong = |at: usize, row: &[Option<u8>]| row[at].is_some_and(|byte| byte != right[at]);
    let wrong: usize = [one, other].map(|row| (0..ROW).filter(|&at| is_wrong(at, row)).count()).iter().sum();
    (0..ROW).all(is_right) && wrong <= 10
}

/// How many rows of two readings of a block are not as the theorem asks.
pub fn rows_not_as_asked(right: &[u8], first: &Lent, second: &Lent) -> usize {
    let readings = [first.reading(), second.reading()];
    let rows = right.chunks(ROW).zip(readings[0].chunks(ROW).zip(readings[1].chunks(ROW)));
    rows.filter(|(right, (one, other))| !is_as_asked(right, one, other)).count()
}
