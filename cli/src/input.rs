//! What is read: a file, or standard input.
use std::fs::File;
use std::io::{self, Read, Seek, SeekFrom};
use std::os::fd::AsFd;
use std::path::Path;

use crate::failure::Failure;

/// The name that stands for standard input and output.
pub fn is_standard(path: &Path) -> bool {
    path.as_os_str() == "-"
}

pub struct Input {
    pub name: String,
    from: File,
    /// Where it is known beforehand.
    pub length: Option<u64>,
}

impl Input {
    pub fn open(path: &Path) -> Result<Self, Failure> {
        if is_standard(path) {
            return Self::from_file("standard input".to_owned(), standard_input());
        }
        Self::from_file(path.display().to_string(), File::open(path))
    }

    fn from_file(name: String, opened: io::Result<File>) -> Result<Self, Failure> {
        match opened.and_then(|file| Ok((file.metadata()?, file))) {
            Ok((known, file)) => Ok(Input {
                name,
                length: known.is_file().then_some(known.len()),
                from: file,
            }),
            Err(error) => Err(Failure::Read { name, error }),
        }
    }

    /// The bytes, and as many of the next ones as there are until they are `most` together.
    pub fn fill(&self, mut bytes: Vec<u8>, most: usize) -> Result<Vec<u8>, Failure> {
        let rest = most - bytes.len();
        bytes.reserve_exact(rest);
        let read = (&self.from).take(rest as u64).read_to_end(&mut bytes);
        self.read(read)?;
        Ok(bytes)
    }

    /// All the bytes that there are.
    pub fn whole(&self) -> Result<Vec<u8>, Failure> {
        let mut bytes = Vec::new();
        let read = (&self.from).read_to_end(&mut bytes);
        self.read(read)?;
        Ok(bytes)
    }

    /// Leaves so many bytes out at the start, or as many as there are.
    pub fn skip(&mut self, count: u64) -> Result<(), Failure> {
        let passed = match self.length {
            Some(length) => self.from.seek(SeekFrom::Start(count.min(length))),
            None => io::copy(&mut (&self.from).take(count), &mut io::sink()),
        };
        self.read(passed)?;
        Ok(())
    }

    fn read<T>(&self, result: io::Result<T>) -> Result<T, Failure> {
        result.map_err(|error| Failure::Read {
            name: self.name.clone(),
            error,
        })
    }
}

/// Standard input without the buffer that `io::stdin` has in front of it.
fn standard_input() -> io::Result<File> {
    Ok(File::from(io::stdin().as_fd().try_clone_to_owned()?))
}
