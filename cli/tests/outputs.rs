//! Where outputs go: folders and names that can't be written, files that are there already, links, devices, permissions.
mod common;

use chamanzil::MAIN;
use common::streams::{image, run_of};
use common::{device, Folder};
use std::fs::{self, Permissions};
use std::os::unix::fs::{symlink, FileTypeExt, MetadataExt, PermissionsExt};
use std::path::Path;

const OLD: &[u8] = b"an older file";

/// An image of one block, its stream, and that stream without its last byte, in a folder.
fn folder_of_one_block() -> Folder {
    let image = image(40, MAIN);
    let stream = run_of(&image, 0x03_0000, 0);
    Folder::with(&[
        ("image", &image),
        ("stream", &stream),
        ("cut", &stream[..stream.len() - 1]),
    ])
}

const FILES: [&str; 3] = ["cut", "image", "stream"];
const CUT: &str =
    "refused 1: the stream has 77379 bytes for this block, where 77380 are due (block 0)";

/// Each command with an output, up to that output's name.
const TO: [&str; 8] = [
    "format image --first 030000 -o ",
    "recover stream -o ",
    "recover stream -o image2 --sheet ",
    "pool stream stream -o ",
    "capture stream -o ",
    "capture stream -o image2 --stretches ",
    "capture stream -o image2 --map ",
    "map stream --as png -o ",
];

/// Each command up to its input's name, with an output where it has one.
const FROM: [&str; 7] = [
    "format --first 030000 -o out ",
    "recover -o out --sheet lines ",
    "pool -o out --sheet lines stream ",
    "capture -o out --stretches lines --map out.png ",
    "map -o out.png ",
    "sheet ",
    "check ",
];

#[test]
fn a_folder_that_is_not_there() {
    let folder = folder_of_one_block();
    for line in TO {
        folder
            .run(&format!("{line}missing/out"))
            .failed("cannot write missing/out: ");
        assert_eq!(folder.names(), FILES, "{line}");
    }
}

#[test]
fn a_file_where_a_folder_is_named() {
    let folder = folder_of_one_block();
    for line in TO {
        folder
            .run(&format!("{line}image/out"))
            .failed("cannot write image/out: ");
        assert_eq!(folder.names(), FILES, "{line}");
    }
}

#[test]
fn an_output_that_is_a_folder() {
    let folder = folder_of_one_block();
    fs::create_dir(folder.path("out")).unwrap();
    for line in TO {
        for name in ["out", "out/", "."] {
            folder
                .run(&format!("{line}{name}"))
                .failed(&format!("cannot write {name}: "));
            assert_eq!(folder.names(), ["cut", "image", "out", "stream"], "{line}");
            assert_eq!(fs::read_dir(folder.path("out")).unwrap().count(), 0);
        }
    }
}

#[test]
fn an_input_that_is_not_there() {
    let folder = folder_of_one_block();
    for line in FROM {
        let ended = folder
            .run(&format!("{line}missing"))
            .failed("cannot read missing: ");
        assert_eq!(ended.out.len(), 0);
        assert_eq!(folder.names(), FILES, "{line}");
    }
}

#[test]
fn an_input_that_is_a_folder() {
    let folder = folder_of_one_block();
    fs::create_dir(folder.path("in")).unwrap();
    for line in FROM {
        let ended = folder.run(&format!("{line}in")).failed("cannot read in: ");
        assert_eq!(ended.out.len(), 0);
        assert_eq!(folder.names(), ["cut", "image", "in", "stream"], "{line}");
    }
}

#[test]
fn an_existing_output_is_replaced_at_success() {
    let folder = folder_of_one_block();
    folder.write("out", OLD);
    folder.write("lines", OLD);
    folder.run("format image -o out --first 030000").done();
    assert!(folder.read("out") == folder.read("stream"));
    folder.run("recover stream -o out --sheet lines").done();
    assert!(folder.read("out") == folder.read("image"));
    let line = b"block 030000 rows 0 0 columns 0 0 unknown 0 sync 0\n";
    assert_eq!(folder.read("lines"), line);
    folder.run("map stream -o out --as png").done();
    assert!(folder.read("out").starts_with(b"\x89PNG"));
    assert_eq!(folder.names(), ["cut", "image", "lines", "out", "stream"]);
}

#[test]
fn an_existing_output_is_untouched_at_refusal() {
    let folder = folder_of_one_block();
    folder.write("out", OLD);
    folder.write("lines", OLD);
    let before = fs::metadata(folder.path("out")).unwrap();
    folder
        .run("format image -o out --first 030001")
        .refused("refused 2: the first number is no multiple of 16, or over 16,777,200 (block 0)");
    folder.run("recover cut -o out --sheet lines").refused(CUT);
    folder.run("map cut -o out --as png").refused(CUT);
    let after = fs::metadata(folder.path("out")).unwrap();
    assert_eq!(
        (after.ino(), after.mtime_nsec()),
        (before.ino(), before.mtime_nsec())
    );
    assert_eq!(
        (folder.read("out"), folder.read("lines")),
        (OLD.into(), OLD.into())
    );
    assert_eq!(folder.names(), ["cut", "image", "lines", "out", "stream"]);
}

/// Where one of two outputs can't be written, there is none.
#[test]
fn both_outputs_or_none() {
    let folder = folder_of_one_block();
    folder
        .run("recover stream -o out --sheet missing/lines")
        .failed("cannot write missing/lines: ");
    folder
        .run("recover stream -o missing/out --sheet lines")
        .failed("cannot write missing/out: ");
    fs::create_dir(folder.path("folder")).unwrap();
    folder
        .run("recover stream -o out --sheet folder")
        .failed("cannot write folder: ");
    folder
        .run("recover stream -o folder --sheet lines")
        .failed("cannot write folder: ");
    assert_eq!(folder.names(), ["cut", "folder", "image", "stream"]);
}

/// The output is written beside its input, so that it may take the input's place.
#[test]
fn in_place() {
    let folder = folder_of_one_block();
    folder.run("format image -o image --first 030000").done();
    assert!(folder.read("image") == folder.read("stream"));
    folder.run("recover cut -o cut").refused(CUT);
    assert_eq!(folder.read("cut").len(), 77_379);
    assert_eq!(folder.names(), FILES);
}

/// Writes every output to a device, by its name and by a link to it.
fn stays_a_device(folder: &Folder, device: &str) {
    let kind = |path: &Path| fs::metadata(path).unwrap().file_type();
    let path = folder.path(device);
    let link = folder.path("link");
    symlink(&path, &link).unwrap();
    for line in TO {
        for name in [device, "link"] {
            folder.run(&format!("{line}{name}")).done();
            assert!(kind(&path).is_char_device(), "{line}{name}");
        }
    }
    fs::remove_file(link).unwrap();
}

#[test]
fn the_null_device_stays_a_device() {
    let folder = folder_of_one_block();
    if let Some(device) = device(&folder, "null", "3") {
        stays_a_device(&folder, &device);
        // what does no harm to that one does none to the machine's
        stays_a_device(&folder, "/dev/null");
    }
    let before = [&FILES[..], &["image2", "null"]].concat();
    assert!(folder
        .names()
        .iter()
        .all(|name| before.contains(&&name[..])));
}

/// What is read by the link's name is the new output; a refusal changes neither the link nor what it names.
#[test]
fn a_symbolic_link() {
    let folder = folder_of_one_block();
    fs::create_dir(folder.path("elsewhere")).unwrap();
    let target = folder.path("elsewhere/target");
    fs::write(&target, OLD).unwrap();
    symlink(&target, folder.path("link")).unwrap();
    folder.run("recover cut -o link").refused(CUT);
    assert_eq!(fs::read_link(folder.path("link")).unwrap(), target);
    assert_eq!(fs::read(&target).unwrap(), OLD);

    folder.run("recover stream -o link").done();
    assert_eq!(fs::read_link(folder.path("link")).unwrap(), target);
    assert!(fs::read(&target).unwrap() == folder.read("image"));
    assert_eq!(fs::read_dir(folder.path("elsewhere")).unwrap().count(), 1);
    assert_eq!(
        folder.names(),
        ["cut", "elsewhere", "image", "link", "stream"]
    );
}

#[test]
fn permissions_are_those_of_the_umask() {
    let folder = folder_of_one_block();
    for (umask, due) in [
        ("022", 0o644),
        ("077", 0o600),
        ("002", 0o664),
        ("027", 0o640),
    ] {
        for line in TO {
            folder
                .shell(&format!(r#"umask {umask}; "$0" {line} out"#))
                .done();
            let mode = fs::metadata(folder.path("out")).unwrap().mode() & 0o777;
            assert_eq!(mode, due, "{line} with umask {umask}: {mode:o}");
            fs::remove_file(folder.path("out")).unwrap();
        }
    }
}

/// An output that is replaced is as open to others as it was.
#[test]
fn a_replaced_output_keeps_its_permissions() {
    let folder = folder_of_one_block();
    for due in [0o600, 0o640, 0o664] {
        folder.write("out", OLD);
        fs::set_permissions(folder.path("out"), Permissions::from_mode(due)).unwrap();
        folder.run("recover stream -o out").done();
        assert!(folder.read("out") == folder.read("image"));
        let mode = fs::metadata(folder.path("out")).unwrap().mode() & 0o777;
        assert_eq!(mode, due, "{mode:o}");
    }
}

/// Names that are no text, begin with a sign or hold spaces.
#[test]
fn odd_names() {
    use std::ffi::OsStr;
    use std::os::unix::ffi::OsStrExt;
    let folder = folder_of_one_block();
    for name in [
        &b"with space"[..],
        b"\xFF\xFE",
        b".hidden",
        "Scheibe-ä".as_bytes(),
    ] {
        let name = OsStr::from_bytes(name);
        let mut command = folder.command("recover stream -o");
        common::ended(command.arg(name)).done();
        let path = folder.path("").join(name);
        assert!(fs::read(&path).unwrap() == folder.read("image"), "{name:?}");
        fs::remove_file(path).unwrap();
        assert_eq!(folder.names(), FILES);
    }
}
