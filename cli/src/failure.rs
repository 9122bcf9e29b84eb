//! Why a command ends without being done, in the words that go to standard error.
use std::fmt;
use std::io;

use chamanzil::Refusal;

#[derive(Debug)]
pub enum Failure {
    /// By the library, with the papers' number.
    Refused(Refused),
    /// A file that can't be read,
    Read { name: String, error: io::Error },
    /// or written.
    Write { name: String, error: io::Error },
    /// Arguments that can't be had together.
    Arguments(String),
}

/// A refusal, where it was, and words of its own where those of the library say too little.
#[derive(Debug)]
pub struct Refused {
    pub refusal: Refusal,
    pub block: Option<u64>,
    pub words: Option<String>,
}

/// How a stream is called that is the only one.
pub const THE_STREAM: &str = "the stream";

/// A number of bytes, in words.
pub fn bytes(count: usize) -> String {
    match count {
        1 => "1 byte".to_owned(),
        more => format!("{more} bytes"),
    }
}

impl Refused {
    /// A block's; `length` are the bytes that there were for it in the stream, which is called so.
    pub fn in_stream(refusal: Refusal, block: u64, stream: &str, length: usize) -> Self {
        let words = (refusal == Refusal::Length).then(|| {
            let (has, due) = (bytes(length), chamanzil::STREAM);
            format!("{stream} has {has} for this block, where {due} are due")
        });
        Refused {
            refusal,
            block: Some(block),
            words,
        }
    }
}

impl fmt::Display for Refused {
    fn fmt(&self, f: &mut fmt::Formatter<'_>) -> fmt::Result {
        match &self.words {
            Some(words) => write!(f, "refused {}: {words}", self.refusal.number())?,
            None => self.refusal.fmt(f)?,
        }
        match self.block {
            Some(block) => write!(f, " (block {block})"),
            None => Ok(()),
        }
    }
}

impl From<Refused> for Failure {
    fn from(refused: Refused) -> Self {
        Failure::Refused(refused)
    }
}

impl fmt::Display for Failure {
    fn fmt(&self, f: &mut fmt::Formatter<'_>) -> fmt::Result {
        match self {
            Failure::Refused(refused) => refused.fmt(f),
            Failure::Read { name, error } => write!(f, "cannot read {name}: {error}"),
            Failure::Write { name, error } => write!(f, "cannot write {name}: {error}"),
            Failure::Arguments(words) => write!(f, "error: {words}"),
        }
    }
}
