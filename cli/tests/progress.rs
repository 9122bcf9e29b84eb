//! Progress is shown on a terminal and nowhere else.
mod common;

use chamanzil::MAIN;
use common::streams::{image, said_of, written};
use common::{ended, Folder, CHAMANZIL};

/// Blocks that take long enough for a bar to be drawn.
const BLOCKS: usize = 300;

/// What a terminal gets of a command, with line ends as files have them.
fn on_a_terminal(folder: &Folder, line: &str) -> String {
    let line = format!("'{CHAMANZIL}' {line}");
    let mut script = folder.program("script", &["-qec", &line, "/dev/null"]);
    let ended = ended(script.env("TERM", "xterm")).done();
    ended.text().replace("\r\n", "\n")
}

/// The lines that are left on a terminal: a bar is taken away by the code that clears its line.
fn left_on_screen(shown: &str) -> Vec<&str> {
    let lines = shown
        .lines()
        .map(|line| line.rsplit("\x1B[2K").next().unwrap());
    lines.filter(|line| !line.is_empty()).collect()
}

#[test]
fn a_bar_on_a_terminal() {
    let image = image(150, BLOCKS * MAIN);
    let (stream, record) = written(&image, 0x03_0000, 0);
    let folder = Folder::with(&[("image", &image), ("stream", &stream)]);
    let formatted = said_of(record);
    let recovered = "blocks 300 refused 0 rows 0 0 columns 0 0 unknown 0 sync 0";
    let pooled = format!("{recovered} marked 0");
    let captured = "frames 124800 stretches 1";
    // each long command, and its last line on standard error
    let long = [
        ("format image -o out --first 030000", &*formatted),
        ("recover stream -o out", recovered),
        ("pool stream stream -o out", &*pooled),
        ("capture stream -o out --map map", captured),
        ("sheet stream", ""),
        ("check stream", ""),
    ];
    for (line, last) in long {
        let ended = folder.run(line).done();
        let shown = on_a_terminal(&folder, line);
        // a bar is drawn over itself, by a return or by codes of the terminal
        assert!(
            shown.contains(['\r', '\x1B']),
            "{line}: no bar in {shown:?}"
        );
        assert!(
            !ended.err.contains(['\r', '\x1B']),
            "{line}: a bar where there is no terminal"
        );
        let due: Vec<&str> = last.lines().collect();
        assert_eq!(ended.lines(), due, "{line}");
        // what the command tells has lines of its own, and no bar is left
        let told = ended.text().lines().chain(due);
        assert!(
            left_on_screen(&shown).into_iter().eq(told),
            "{line}: {shown:?}"
        );
    }
}
