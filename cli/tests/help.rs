//! `--help` of each command and its example, which has to run as it stands; completions.
mod common;

use chamanzil::MAIN;
use common::streams::{image, run_of};
use common::{ended, Ended, Folder, CHAMANZIL};
use std::path::Path;

const COMMANDS: [&str; 8] = [
    "format",
    "recover",
    "pool",
    "capture",
    "sheet",
    "map",
    "check",
    "completions",
];

fn help(command: &str) -> String {
    let ended = Folder::new()
        .run(&format!("{command} --help"))
        .done()
        .said(&[]);
    ended.text().to_string()
}

/// The example in a command's help: the one line that can be typed as it stands.
fn example(command: &str) -> String {
    let help = help(command);
    assert_eq!(help.matches("Example:").count(), 1, "{help}");
    let typed = |line: &str| {
        line.trim()
            .trim_start_matches("Example:")
            .trim()
            .to_string()
    };
    let is_example = |line: &String| line.starts_with(&format!("chamanzil {command}"));
    let examples: Vec<String> = help.lines().map(typed).filter(is_example).collect();
    assert_eq!(examples.len(), 1, "{help}");
    examples[0].clone()
}

/// Runs a line of a shell as it is typed, where `chamanzil` is found by its name.
fn typed(folder: &Folder, line: &str) -> Ended {
    let folder_of_command = Path::new(CHAMANZIL).parent().unwrap().display();
    let path = format!("{folder_of_command}:{}", std::env::var("PATH").unwrap());
    ended(folder.program("sh", &["-c", line]).env("PATH", path))
}

/// The files that a line names, but for the command's own words and what options take that is no file.
fn inputs_of(line: &str) -> Vec<&str> {
    let mut words = line.split_whitespace().skip(2);
    let mut inputs = Vec::new();
    while let Some(word) = words.next() {
        match word {
            "--keep-going" => {}
            _ if word.starts_with("--") && word.contains('=') => {}
            _ if word.starts_with('-') && word.len() > 1 => drop(words.next()),
            _ => inputs.push(word),
        }
    }
    assert!(!inputs.is_empty(), "no input in: {line}");
    inputs
}

fn output_of(line: &str) -> Option<&str> {
    let words: Vec<&str> = line.split_whitespace().collect();
    let at = words
        .iter()
        .position(|word| ["-o", "--output", ">"].contains(word))?;
    words.get(at + 1).copied()
}

#[test]
fn each_example_runs() {
    let image = image(140, 5 * MAIN + 2_048);
    let stream = run_of(&image, 0x03_0000, 0);
    for command in [
        "format", "recover", "pool", "capture", "sheet", "map", "check",
    ] {
        let line = example(command);
        let folder = Folder::new();
        let input = if command == "format" { &image } else { &stream };
        for name in inputs_of(&line) {
            folder.write(name, input);
        }
        let ended = typed(&folder, &line).done();
        match output_of(&line) {
            Some(output) => assert!(!folder.read(output).is_empty(), "{line}"),
            None => assert!(!ended.out.is_empty(), "{line}"),
        }
    }
    let line = example("completions");
    let folder = Folder::new();
    let ended = typed(&folder, &line).done();
    assert!(
        !ended.out.is_empty() || !folder.names().is_empty(),
        "{line}"
    );
}

#[test]
fn the_help_names_each_command() {
    let all = Folder::new().run("--help").done();
    for command in COMMANDS {
        let is_named = |line: &str| line.trim().starts_with(&format!("{command} "));
        assert!(
            all.text().lines().any(is_named),
            "{command}: {}",
            all.text()
        );
        assert!(help(command).len() > 100);
    }
}

/// Each option stands in the help of its command.
#[test]
fn the_help_names_each_option() {
    for (command, options) in [
        ("format", &["--output", "--first", "--info"][..]),
        (
            "recover",
            &[
                "--output",
                "--length",
                "--sheet",
                "--keep-going",
                "--strict",
            ],
        ),
        ("pool", &["--output", "--length", "--sheet", "--keep-going"]),
        ("capture", &["--output", "--stretches", "--map"]),
        ("map", &["--output", "--block", "--as"]),
    ] {
        let help = help(command);
        for option in options.iter().chain(&["-o, "][..]) {
            assert!(help.contains(option), "{command} {option}: {help}");
        }
    }
}

/// Words that stand in a command's help, wherever clap breaks its lines.
#[track_caller]
fn tells(command: &str, words: &str) {
    let help = help(command);
    let text = help.split_whitespace().collect::<Vec<_>>().join(" ");
    assert!(text.contains(words), "{command} {words}: {help}");
}

/// What is said of marks, where they decide what is handed out or drawn.
#[test]
fn the_help_tells_of_marks() {
    for (command, words) in [
        ("recover", "read once more without marks"),
        ("recover", "be it with marks or without"),
        ("pool", "at most ten unmarked wrong bytes"),
        ("pool", "use `recover` on each first"),
        ("pool", "no second try without marks"),
        ("sheet", "not a second time without"),
        ("map", "repaired by their marks"),
    ] {
        tells(command, words);
    }
}

/// How long a capture may be, and what memory it needs.
#[test]
fn the_help_tells_the_limits_of_a_capture() {
    tells("capture", "at most 1,099,511,627,776 of them");
    tells("capture", "held in memory");
    tells("capture", "1.5 times its length where little is lost");
    tells("capture", "1.7 times at most");
}

#[test]
fn completions_mention_each_command() {
    for shell in ["bash", "zsh", "fish"] {
        let folder = Folder::new();
        let ended = folder.run(&format!("completions {shell}")).done().said(&[]);
        for command in COMMANDS {
            assert!(ended.text().contains(command), "{shell}: {command}");
        }
        for option in ["keep-going", "strict", "first", "sheet", "stretches"] {
            assert!(ended.text().contains(option), "{shell}: {option}");
        }
        assert_eq!(folder.names().len(), 0);
    }
}

/// What bash reads from the script: it has to be one, and to offer the commands.
#[test]
fn bash_completes_a_command() {
    let folder = Folder::new();
    let script = folder.run("completions bash").done().out;
    folder.write("script", &script);
    let line = r#". ./script
        COMP_WORDS=(chamanzil rec) COMP_CWORD=1
        _chamanzil chamanzil rec chamanzil
        echo "${COMPREPLY[@]}""#;
    let ended = ended(&mut folder.program("bash", &["-c", line])).done();
    assert_eq!(ended.text(), "recover\n");
}
