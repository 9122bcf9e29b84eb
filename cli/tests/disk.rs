//! A disk that is full before everything is written: by a limit on the length of files, and by a small disk of its own.
mod common;

use chamanzil::MAIN;
use common::streams::{image, run_of};
use common::Folder;

/// Each command with a file to write, and the name that it can't write.
const WRITING: [(&str, &str); 6] = [
    ("format image -o out --first 030000", "out"),
    ("recover stream -o out", "out"),
    ("recover stream -o out --sheet lines", "out"),
    ("capture stream -o out --stretches lines", "out"),
    ("capture /dev/null -o bytes --map out.png", "out.png"),
    ("map stream -o out.png", "out.png"),
];

fn folder_of_four_blocks() -> Folder {
    let image = image(50, 4 * MAIN);
    Folder::with(&[("image", &image), ("stream", &run_of(&image, 0x03_0000, 0))])
}

/// Files of 512 bytes at most.
const LIMIT: &str = "ulimit -f 1";

#[test]
fn a_limit_on_the_length_of_files() {
    let folder = folder_of_four_blocks();
    for (line, name) in WRITING {
        let line = format!(r#"{LIMIT}; exec "$0" {line}"#);
        folder
            .shell(&line)
            .failed(&format!("cannot write {name}: "));
        assert_eq!(folder.names(), ["image", "stream"], "{line}");
    }
}

/// Also an output that was there before stays.
#[test]
fn the_older_output_stays() {
    let folder = folder_of_four_blocks();
    for (line, name) in WRITING {
        folder.write(name, b"old");
        let line = format!(r#"{LIMIT}; exec "$0" {line}"#);
        folder
            .shell(&line)
            .failed(&format!("cannot write {name}: "));
        assert_eq!(folder.read(name), b"old", "{line}");
    }
    assert_eq!(folder.names(), ["image", "out", "out.png", "stream"]);
}

/// The limit is reached in the last block, when some were written already.
#[test]
fn a_limit_in_the_last_block() {
    let folder = folder_of_four_blocks();
    // 4 * 77,376 + 4 bytes are 604 units of 512 and four bytes
    let line = r#"ulimit -f 604; exec "$0" format image -o out --first 030000"#;
    folder.shell(line).failed("cannot write out: ");
    assert_eq!(folder.names(), ["image", "stream"]);
    let line = r#"ulimit -f 605; exec "$0" format image -o out --first 030000"#;
    folder.shell(line).done();
    assert!(folder.read("out") == folder.read("stream"));
}

/// What goes to standard output is kept in a file until it is whole: where that has no room, no byte is handed out.
#[test]
fn standard_output_that_can_not_be_kept() {
    let folder = folder_of_four_blocks();
    for line in [
        "format image -o - --first 030000",
        "recover stream -o -",
        "capture stream -o -",
    ] {
        let ended = folder.shell(&format!(r#"{LIMIT}; exec "$0" {line}"#));
        assert_eq!(ended.failed("cannot write ").out.len(), 0, "{line}");
        assert_eq!(folder.names(), ["image", "stream"], "{line}");
    }
}

/// A disk of 100 KB that only the command's shell sees, and that is gone with it. What is left on it is listed after each run.
fn on_a_small_disk(folder: &Folder, line: &str) -> Option<common::Ended> {
    let script = format!(
        r#"mkdir -p disk && mount -t tmpfs -o size=100k none disk || exit 77
        printf old > disk/old
        "$0" {line}
        status=$?
        ls -A disk > left
        exit $status"#
    );
    let arguments = ["-rm", "sh", "-c", &script, common::CHAMANZIL];
    let ended = common::ended(&mut folder.program("unshare", &arguments));
    // 77: no disk; unshare itself ends with 1 where it is not permitted
    let is_made = ended.status != Some(77) && !ended.err.contains("unshare");
    is_made.then_some(ended)
}

#[test]
fn a_small_disk() {
    let folder = folder_of_four_blocks();
    for line in [
        "format image -o disk/new --first 030000",
        "format image -o disk/old --first 030000",
        "recover stream -o disk/new",
        "recover stream -o disk/old",
        "recover stream -o disk/new --sheet disk/lines",
        "capture stream -o disk/new --stretches disk/lines --map disk/map",
    ] {
        let Some(ended) = on_a_small_disk(&folder, line) else {
            println!("skipped: no disk can be mounted here");
            return;
        };
        let name = line
            .split(' ')
            .find(|word| word.starts_with("disk/"))
            .unwrap();
        ended.failed(&format!("cannot write {name}: "));
        assert_eq!(folder.read("left"), b"old\n", "{line}");
    }
    // of an image that is too long as much as is asked for has room
    let line = "recover stream -o disk/old --length 40000";
    on_a_small_disk(&folder, line).unwrap().done();
    assert_eq!(folder.read("left"), b"old\n");
    // a stream of one block has room
    folder.write("small", &image(51, MAIN));
    let line = "format small -o disk/old --first 030000";
    on_a_small_disk(&folder, line).unwrap().done();
    assert_eq!(folder.read("left"), b"old\n");
}
