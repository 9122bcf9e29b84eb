//! The command `chamanzil`. Whatever is decided about blocks and streams is decided by the proved library; this opens files, shows progress and draws.
mod arguments;
mod canvas;
mod capture;
mod check;
mod failure;
mod font;
mod format;
mod handout;
mod input;
mod map;
mod output;
mod pieces;
mod pool;
mod progress;
mod reading;
mod recover;
mod sheet;
mod signals;

use std::io::Write;
use std::process::ExitCode;

use clap::{CommandFactory, Parser};

use arguments::{Arguments, Command, Completions};
use failure::Failure;

/// How a command ends that came to its end.
#[derive(Clone, Copy, PartialEq, Eq)]
pub(crate) enum Ending {
    Done,
    /// Done as far as it goes, with blocks refused or faults found that are on standard error.
    Refused,
}

/// A line on standard error. Where nobody takes it there is nobody to tell.
pub(crate) fn say(line: impl std::fmt::Display) {
    let _ = writeln!(std::io::stderr(), "{line}");
}

/// A line on standard output.
pub(crate) fn tell(line: impl std::fmt::Display) -> Result<(), Failure> {
    writeln!(std::io::stdout(), "{line}").map_err(|error| Failure::Write {
        name: "standard output".to_owned(),
        error,
    })
}

fn completions(chosen: &Completions) -> Result<Ending, Failure> {
    let mut text = Vec::new();
    clap_complete::generate(
        chosen.shell,
        &mut Arguments::command(),
        "chamanzil",
        &mut text,
    );
    tell(String::from_utf8_lossy(&text).trim_end())?;
    Ok(Ending::Done)
}

fn run(command: &Command) -> Result<Ending, Failure> {
    match command {
        Command::Format(chosen) => format::run(chosen),
        Command::Recover(chosen) => recover::run(chosen),
        Command::Pool(chosen) => pool::run(chosen),
        Command::Capture(chosen) => capture::run(chosen),
        Command::Sheet(chosen) => sheet::run(chosen),
        Command::Map(chosen) => map::run(chosen),
        Command::Check(chosen) => check::run(chosen),
        Command::Completions(chosen) => completions(chosen),
    }
}

fn main() -> ExitCode {
    let arguments = Arguments::parse();
    signals::watch();
    match run(&arguments.command) {
        Ok(Ending::Done) => ExitCode::SUCCESS,
        Ok(Ending::Refused) => ExitCode::from(1),
        Err(failure) => {
            say(&failure);
            ExitCode::from(if matches!(failure, Failure::Arguments(_)) {
                2
            } else {
                1
            })
        }
    }
}
