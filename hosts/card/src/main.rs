//! The card command: cards in files and devices of any size, from a shell.
//!
//! What a card may be, and what a call changes, is decided by the library's proved calls alone. This program opens files, moves bytes, and puts words to what the calls answer.
mod apply;
mod args;
mod drawn;
mod dry;
mod failure;
mod help;
mod json;
mod look;
mod medium;
mod opened;
mod output;
mod over;
mod payload;
mod plan;
mod progress;
mod report;
mod system;
mod table;
mod words;

use args::Args;
use failure::{system_words, Failure, Outcome};
use output::Out;
use std::ffi::OsString;
use std::process::ExitCode;

fn main() -> ExitCode {
    let mut out = Out::default();
    let done = output::open().and_then(|()| run(std::env::args_os().skip(1).collect(), &mut out));
    let written = out.write();
    let failure = match (done, written) {
        (Ok(()), Ok(())) => return ExitCode::SUCCESS,
        (Err(failure), _) => failure,
        (Ok(()), Err(failure)) => failure,
    };
    if let Some(words) = failure.words() {
        match &failure {
            Failure::Output(reason) if out.changed => eprintln!("card: done, but the report cannot be written: {}", system_words(reason)),
            _ => eprintln!("card: {words}"),
        }
    }
    ExitCode::from(failure.status())
}

/// Does what the words say.
fn run(mut words: Vec<OsString>, out: &mut Out) -> Outcome {
    if words.is_empty() {
        eprint!("{}", help::all());
        return Err(Failure::Usage("no command".into(), ""));
    }
    let rest = words.split_off(1);
    match words[0].to_string_lossy().as_ref() {
        "help" | "--help" | "-h" => help_of(rest, out),
        "--version" => {
            out.line(format!("card {}", env!("CARGO_PKG_VERSION")));
            Ok(())
        }
        name => {
            let command = help::command(name)?;
            let args = Args::new(command.name, rest, command.options)?;
            if args.has("help") {
                out.text(&help::one(command));
                return Ok(());
            }
            (command.run)(args, out)
        }
    }
}

/// `help [COMMAND]`
fn help_of(words: Vec<OsString>, out: &mut Out) -> Outcome {
    match words.first() {
        None => out.text(&help::all()),
        Some(name) => out.text(&help::one(help::command(&name.to_string_lossy())?)),
    }
    Ok(())
}
