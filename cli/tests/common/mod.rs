//! What the tests share: a folder of its own for each test (`Folder`), the command run in it (`Ended`), streams (`streams`), damage (`damage`), what each byte
//! of a block is on a map (`cells`), and pictures (`picture`, `squares`).
#![allow(dead_code)]

pub mod cells;
pub mod damage;
pub mod picture;
pub mod squares;
pub mod streams;

use std::fs::{self, OpenOptions};
use std::io::Write;
use std::os::unix::process::ExitStatusExt;
use std::path::{Path, PathBuf};
use std::process::{Child, ChildStdin, Command, Output, Stdio};
use std::sync::atomic::{AtomicU32, Ordering};
use std::sync::mpsc;
use std::thread;
use std::time::{Duration, Instant};

/// The command, as cargo built it.
pub const CHAMANZIL: &str = env!("CARGO_BIN_EXE_chamanzil");

/// What a run of the command may take: a command that waits for ever is a failed test, not a gate that hangs.
const LONGEST: Duration = Duration::from_secs(60);

/// A file of the repository.
pub fn in_repository(path: &str) -> PathBuf {
    Path::new(env!("CARGO_MANIFEST_DIR")).join("..").join(path)
}

/// A folder that is removed at the end of its test, also of one that fails.
pub struct Folder(PathBuf);

impl Drop for Folder {
    fn drop(&mut self) {
        // a folder that can't be removed must not hide why the test failed
        let _ = fs::remove_dir_all(&self.0);
    }
}

impl Folder {
    pub fn new() -> Self {
        static MADE: AtomicU32 = AtomicU32::new(0);
        let name = format!(
            "chamanzil-test-{}-{}",
            std::process::id(),
            MADE.fetch_add(1, Ordering::Relaxed)
        );
        let path = std::env::temp_dir().join(name);
        fs::create_dir(&path).unwrap();
        Folder(path)
    }

    /// A folder with these files.
    pub fn with(files: &[(&str, &[u8])]) -> Self {
        let folder = Folder::new();
        for (name, bytes) in files {
            folder.write(name, bytes);
        }
        folder
    }

    pub fn path(&self, name: &str) -> PathBuf {
        self.0.join(name)
    }

    pub fn write(&self, name: &str, bytes: &[u8]) {
        fs::write(self.path(name), bytes).unwrap();
    }

    #[track_caller]
    pub fn read(&self, name: &str) -> Vec<u8> {
        fs::read(self.path(name)).unwrap_or_else(|why| panic!("{name}: {why}"))
    }

    /// The names in it, hidden ones too, in order.
    pub fn names(&self) -> Vec<String> {
        let entries = fs::read_dir(&self.0).unwrap();
        let mut names: Vec<String> = entries
            .map(|entry| entry.unwrap().file_name().into_string().unwrap())
            .collect();
        names.sort();
        names
    }

    /// Another program in the folder, with no standard input.
    pub fn program(&self, program: &str, arguments: &[&str]) -> Command {
        let mut command = Command::new(program);
        command
            .args(arguments)
            .current_dir(&self.0)
            .stdin(Stdio::null())
            .stdout(Stdio::piped())
            .stderr(Stdio::piped());
        command
    }

    /// The command in the folder, its arguments in one line.
    pub fn command(&self, line: &str) -> Command {
        let arguments: Vec<&str> = line.split_whitespace().collect();
        self.program(CHAMANZIL, &arguments)
    }

    /// A line of sh in the folder, in which "$0" is the command.
    pub fn shell(&self, line: &str) -> Ended {
        ended(&mut self.program("sh", &["-c", line, CHAMANZIL]))
    }

    pub fn run(&self, line: &str) -> Ended {
        ended(&mut self.command(line))
    }

    /// The command with these bytes on its standard input.
    pub fn pipe(&self, line: &str, input: &[u8]) -> Ended {
        fed(&mut self.command(line), input, input.len().max(1))
    }
}

/// A character device by its minor number, as /dev has it under this name, by which a test may write. It is one of the test's own in the folder: root could lose the
/// machine's to a command that puts files in the place of devices. Where none can be made, /dev has to be closed to the test too; else there is none.
pub fn device(folder: &Folder, name: &str, minor: &str) -> Option<String> {
    let made = ended(&mut folder.program("mknod", &[name, "c", "1", minor]));
    let is_usable = made.status == Some(0)
        && OpenOptions::new()
            .write(true)
            .open(folder.path(name))
            .is_ok();
    let is_closed = folder.shell("test -w /dev").status == Some(1);
    match (is_usable, is_closed) {
        (true, _) => Some(name.to_string()),
        (false, true) => Some(format!("/dev/{name}")),
        (false, false) => {
            println!("skipped: no device can be made here");
            None
        }
    }
}

/// What a run left: its status or the signal that ended it, and what it wrote.
pub struct Ended {
    pub status: Option<i32>,
    pub signal: Option<i32>,
    pub out: Vec<u8>,
    pub err: String,
}

impl Ended {
    fn new(output: Output) -> Self {
        Ended {
            status: output.status.code(),
            signal: output.status.signal(),
            out: output.stdout,
            err: String::from_utf8(output.stderr).unwrap(),
        }
    }

    /// The lines on standard error.
    pub fn lines(&self) -> Vec<&str> {
        self.err.lines().collect()
    }

    /// Standard output as text.
    pub fn text(&self) -> &str {
        std::str::from_utf8(&self.out).unwrap()
    }

    /// Ended with this status.
    #[track_caller]
    pub fn with_status(self, due: i32) -> Self {
        let got = (self.status, self.signal);
        assert_eq!(got, (Some(due), None), "standard error: {}", self.err);
        assert!(!self.err.contains("panicked"), "{}", self.err);
        self
    }

    #[track_caller]
    pub fn done(self) -> Self {
        self.with_status(0)
    }

    /// Ended with status 1 and this line, once, and no byte on standard output.
    #[track_caller]
    pub fn refused(self, line: &str) -> Self {
        let ended = self.with_status(1);
        assert_eq!(ended.times(line), 1, "'{line}' in: {}", ended.err);
        assert_eq!(ended.out.len(), 0, "bytes on standard output");
        ended
    }

    /// Ended with status 1 and one line, which begins like this and goes on with why.
    #[track_caller]
    pub fn failed(self, start: &str) -> Self {
        let ended = self.with_status(1);
        let lines = ended.lines();
        let is_said = |line: &&&str| line.starts_with(start) && line.len() > start.len();
        assert_eq!(
            lines.iter().filter(is_said).count(),
            1,
            "'{start}' in: {}",
            ended.err
        );
        ended
    }

    /// How often a line stands on standard error.
    pub fn times(&self, line: &str) -> usize {
        self.err.lines().filter(|other| *other == line).count()
    }

    /// What stands on standard error, to the letter.
    #[track_caller]
    pub fn said(self, lines: &[&str]) -> Self {
        assert_eq!(self.lines(), lines);
        self
    }
}

/// The command to its end.
pub fn ended(command: &mut Command) -> Ended {
    finished(command.spawn().unwrap())
}

/// The command to its end, its standard input in pieces of so many bytes. Where there are several they come slowly enough to be read one by one.
pub fn fed(command: &mut Command, input: &[u8], piece: usize) -> Ended {
    let mut child = command.stdin(Stdio::piped()).spawn().unwrap();
    let stdin = child.stdin.take().unwrap();
    let input = input.to_vec();
    let feeding = thread::spawn(move || feed(stdin, &input, piece));
    let ended = finished(child);
    feeding.join().unwrap();
    ended
}

fn feed(mut stdin: ChildStdin, input: &[u8], piece: usize) {
    for part in input.chunks(piece) {
        // a command that has refused reads no further
        if stdin.write_all(part).is_err() {
            return;
        }
        if piece < input.len() {
            thread::sleep(Duration::from_micros(200));
        }
    }
}

/// A child to its end; one that takes longer than any may is killed, and its test fails.
pub fn finished(child: Child) -> Ended {
    let id = child.id();
    let (sender, receiver) = mpsc::channel();
    thread::spawn(move || sender.send(child.wait_with_output()));
    let Ok(output) = receiver.recv_timeout(LONGEST) else {
        send_signal("KILL", id);
        panic!("the command did not end");
    };
    Ended::new(output.unwrap())
}

pub fn send_signal(name: &str, id: u32) {
    let kill = format!("kill -{name} {id}");
    assert!(Command::new("sh")
        .args(["-c", &kill])
        .status()
        .unwrap()
        .success());
}

/// Waits until something holds, or fails.
#[track_caller]
pub fn until(what: &str, mut holds: impl FnMut() -> bool) {
    let start = Instant::now();
    while !holds() {
        assert!(start.elapsed() < LONGEST, "{what}: not after {LONGEST:?}");
        thread::sleep(Duration::from_millis(1));
    }
}

/// The most memory that a process had so far, in KB.
pub fn peak_memory(id: u32) -> usize {
    let status = fs::read_to_string(format!("/proc/{id}/status")).unwrap();
    let line = status
        .lines()
        .find(|line| line.starts_with("VmHWM:"))
        .unwrap();
    line.split_whitespace().nth(1).unwrap().parse().unwrap()
}
