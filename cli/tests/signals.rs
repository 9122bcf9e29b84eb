//! Interrupted in the middle: nothing new in the folder, an older output as it was, and the process ended by that signal.
mod common;

use chamanzil::MAIN;
use common::streams::{image, run_of};
use common::{finished, send_signal, until, Folder, CHAMANZIL};
use std::io::Write;
use std::process::{Child, ChildStdin, Stdio};

const SIGNALS: [(&str, i32); 3] = [("HUP", 1), ("INT", 2), ("TERM", 15)];
const BLOCKS: usize = 24;

/// The command started on a pipe that holds half its input. A shell or nohup may have had signals ignored in this test: the command gets them as in a terminal.
fn half_way(folder: &Folder, line: &str, input: &[u8]) -> (Child, ChildStdin) {
    let mut arguments = vec!["--default-signal=HUP,INT,TERM", CHAMANZIL];
    arguments.extend(line.split(' '));
    let mut command = folder.program("env", &arguments);
    let mut child = command.stdin(Stdio::piped()).spawn().unwrap();
    let mut stdin = child.stdin.take().unwrap();
    stdin.write_all(&input[..input.len() / 2]).unwrap();
    (child, stdin)
}

/// The names of the outputs under way, which are hidden.
fn parts(folder: &Folder) -> Vec<String> {
    let names = folder.names().into_iter();
    names.filter(|name| name.starts_with('.')).collect()
}

/// Interrupts the command when its outputs are under way.
fn interrupted(line: &str, outputs: &[&str], input: &[u8]) {
    for (name, number) in SIGNALS {
        for is_older in [false, true] {
            let folder = Folder::new();
            if is_older {
                for output in outputs {
                    folder.write(output, b"old");
                }
            }
            let before = folder.names();
            let (child, stdin) = half_way(&folder, line, input);
            let due: Vec<String> = outputs
                .iter()
                .map(|o| format!(".{o}.{}.part", child.id()))
                .collect();
            until("outputs under way", || parts(&folder) == due);
            send_signal(name, child.id());
            let ended = finished(child);
            drop(stdin);
            assert_eq!((ended.status, ended.signal), (None, Some(number)), "{line}");
            assert_eq!(folder.names(), before, "{line}, {name}");
            assert_eq!(ended.out.len(), 0);
            let is_as_it_was = |output: &&str| folder.read(output) == b"old";
            assert!(!is_older || outputs.iter().all(is_as_it_was), "{line}");
        }
    }
}

#[test]
fn format() {
    let image = image(60, BLOCKS * MAIN);
    interrupted("format - -o stream --first 030000", &["stream"], &image);
}

#[test]
fn recover() {
    let stream = run_of(&image(61, BLOCKS * MAIN), 0x03_0000, 0);
    interrupted("recover - -o image", &["image"], &stream);
    interrupted(
        "recover - -o image --sheet lines",
        &["image", "lines"],
        &stream,
    );
    interrupted("recover - -o image --keep-going", &["image"], &stream);
}

#[test]
fn capture() {
    let stream = run_of(&image(63, BLOCKS * MAIN), 0x03_0000, 0);
    interrupted(
        "capture - -o bytes --stretches lines --map map.png",
        &["bytes", "lines", "map.png"],
        &stream,
    );
}

/// Interrupted while it waits for more, without a file of its own in the folder.
fn interrupted_without_files(line: &str, input: &[u8]) {
    for (name, number) in SIGNALS {
        let folder = Folder::new();
        let (child, stdin) = half_way(&folder, line, input);
        // all that was given is more than a pipe holds: when it is taken the command is at work
        send_signal(name, child.id());
        let ended = finished(child);
        drop(stdin);
        assert_eq!((ended.status, ended.signal), (None, Some(number)), "{line}");
        assert_eq!(folder.names().len(), 0, "{line}, {name}");
        assert_eq!(ended.out.len(), 0, "{line}: a byte was handed out");
    }
}

#[test]
fn to_standard_output() {
    let image = image(62, BLOCKS * MAIN);
    let stream = run_of(&image, 0x03_0000, 0);
    interrupted_without_files("format - -o - --first 030000", &image);
    interrupted_without_files("recover - -o -", &stream);
    interrupted_without_files("capture - -o -", &stream);
    interrupted_without_files("check -", &stream);
    interrupted_without_files("map - --block 20 -o map.png", &stream);
}
