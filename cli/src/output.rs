//! What is written: a file that has its name only when it is whole, or standard output.
use std::ffi::OsString;
use std::fs::{self, File, OpenOptions};
use std::io::{self, Seek, Write};
use std::os::fd::AsFd;
use std::panic::resume_unwind;
use std::path::{Path, PathBuf};
use std::process;
use std::sync::mpsc::{sync_channel, SyncSender};
use std::thread::{self, JoinHandle};

use crate::failure::Failure;
use crate::input::is_standard;
use crate::signals;

/// Bytes after which a file is flushed to the disk.
const FLUSHED: usize = 32 << 20;

/// A file that is not yet whole. It goes where it is left before it has another name.
struct Part {
    path: PathBuf,
}

impl Part {
    /// An empty file beside `to`.
    fn create(to: &Path) -> io::Result<(File, Self)> {
        let named = to.file_name().ok_or(io::ErrorKind::InvalidInput)?;
        let mut name = OsString::from(".");
        name.push(named);
        name.push(format!(".{}.part", process::id()));
        let path = to.with_file_name(name);
        signals::watch_part(&path);
        let created = OpenOptions::new().write(true).create_new(true).open(&path);
        match created {
            Ok(file) => Ok((file, Part { path })),
            Err(error) => {
                signals::settle_part(&path, || ());
                Err(error)
            }
        }
    }

    fn rename(&self, to: &Path) -> io::Result<()> {
        signals::settle_part(&self.path, || fs::rename(&self.path, to))
    }
}

impl Drop for Part {
    fn drop(&mut self) {
        let _ = signals::settle_part(&self.path, || fs::remove_file(&self.path));
    }
}

/// The file goes to the disk while more is to come, so that little is left to wait for at its end.
struct Flushing {
    unflushed: usize,
    wake: SyncSender<()>,
    thread: JoinHandle<io::Result<()>>,
}

impl Flushing {
    fn start(file: &File) -> io::Result<Self> {
        let file = file.try_clone()?;
        let (wake, woken) = sync_channel(1);
        let thread = thread::spawn(move || {
            for () in woken {
                file.sync_data()?;
            }
            file.sync_all()
        });
        Ok(Flushing {
            unflushed: 0,
            wake,
            thread,
        })
    }

    fn written(&mut self, bytes: usize) {
        self.unflushed += bytes;
        if self.unflushed >= FLUSHED && self.wake.try_send(()).is_ok() {
            self.unflushed = 0;
        }
    }

    /// Everything is on the disk, or why it is not.
    fn end(self) -> io::Result<()> {
        drop(self.wake);
        self.thread
            .join()
            .unwrap_or_else(|cause| resume_unwind(cause))
    }
}

/// Where the bytes are until the output is whole, and where they go then.
enum Place {
    /// A file beside the one it becomes.
    Named {
        part: Part,
        to: PathBuf,
        flushing: Option<Flushing>,
    },
    /// A file without a name, whose bytes go to standard output, a device or a pipe: what is handed out there can't be taken back.
    Handed { to: File },
}

pub struct Output {
    name: String,
    file: File,
    place: Place,
}

impl Output {
    pub fn create(path: &Path) -> Result<Self, Failure> {
        let standard = is_standard(path);
        let name = if standard {
            "standard output".to_owned()
        } else {
            path.display().to_string()
        };
        let created = if standard {
            standard_output().and_then(handed)
        } else {
            beside(path)
        };
        match created {
            Ok((file, place)) => Ok(Output { name, file, place }),
            Err(error) => Err(Failure::Write { name, error }),
        }
    }

    fn written<T>(name: &str, result: io::Result<T>) -> Result<T, Failure> {
        result.map_err(|error| Failure::Write {
            name: name.to_owned(),
            error,
        })
    }

    pub fn write(&mut self, bytes: &[u8]) -> Result<(), Failure> {
        if let Place::Named {
            flushing: Some(flushing),
            ..
        } = &mut self.place
        {
            flushing.written(bytes.len());
        }
        Self::written(&self.name, self.file.write_all(bytes))
    }

    fn flush(&mut self) -> io::Result<()> {
        match &mut self.place {
            Place::Named { flushing, .. } => flushing.take().map_or(Ok(()), Flushing::end),
            Place::Handed { .. } => Ok(()),
        }
    }

    fn hand_out(&mut self) -> io::Result<()> {
        let Place::Handed { to } = &mut self.place else {
            return Ok(());
        };
        self.file.rewind()?;
        io::copy(&mut self.file, to).map(|_| ())
    }

    fn rename(&mut self) -> io::Result<()> {
        match &self.place {
            Place::Named { part, to, .. } => part.rename(to),
            Place::Handed { .. } => Ok(()),
        }
    }
}

/// Wrong arguments where two options name the same file.
pub fn distinct(options: &[(&str, Option<&Path>)]) -> Result<(), Failure> {
    for (k, (option, path)) in options.iter().enumerate() {
        let is_same = |(_, other): &&(_, Option<&Path>)| path.is_some() && other == path;
        if let Some((before, _)) = options[..k].iter().find(is_same) {
            let words = format!("{before} and {option} name the same file");
            return Err(Failure::Arguments(words));
        }
    }
    Ok(())
}

/// Everything is there: each output gets its name, or is handed out. Names come last, so that none stands there where another output fails.
pub fn finish(mut outputs: Vec<Output>) -> Result<(), Failure> {
    for step in [Output::flush, Output::hand_out, Output::rename] {
        for output in &mut outputs {
            let result = step(output);
            Output::written(&output.name, result)?;
        }
    }
    Ok(())
}

/// Standard output without the buffer that `io::stdout` has in front of it.
fn standard_output() -> io::Result<File> {
    Ok(File::from(io::stdout().as_fd().try_clone_to_owned()?))
}

/// A file without a name in the folder for temporary files. It has one for a moment, in which a signal may come.
fn handed(to: File) -> io::Result<(File, Place)> {
    let path = std::env::temp_dir().join(format!("chamanzil.{}.{:p}", process::id(), &to));
    signals::watch_part(&path);
    let created = OpenOptions::new()
        .read(true)
        .write(true)
        .create_new(true)
        .open(&path);
    let unnamed = created.and_then(|file| fs::remove_file(&path).map(|()| file));
    signals::settle_part(&path, || ());
    Ok((unnamed?, Place::Handed { to }))
}

/// The file that becomes `path`, in the same folder. A link is followed; a device or a pipe stays what it is.
fn beside(path: &Path) -> io::Result<(File, Place)> {
    let Ok(known) = fs::metadata(path) else {
        return named(path.to_owned());
    };
    // what may not be written may not be replaced either
    let existing = OpenOptions::new().write(true).open(path)?;
    if !known.is_file() {
        return handed(existing);
    }
    let (file, place) = named(path.canonicalize()?)?;
    file.set_permissions(known.permissions())?;
    Ok((file, place))
}

fn named(to: PathBuf) -> io::Result<(File, Place)> {
    let (file, part) = Part::create(&to)?;
    let flushing = Some(Flushing::start(&file)?);
    Ok((file, Place::Named { part, to, flushing }))
}
