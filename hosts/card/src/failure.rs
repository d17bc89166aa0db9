//! How a command ends when it does not do what was asked: with words for the user and an exit status.
use std::io;

/// What was in the way.
#[derive(Debug)]
pub enum Failure {
    /// The library, or a rule of the command, refuses: status 1. The words are whole, with the number where there is one.
    Refused(String),
    /// The command was not understood: status 2. The words, and the command whose help says more.
    Usage(String, &'static str),
    /// Reading or writing failed, which says nothing about the card: status 3.
    Io(String),
    /// What the command says could not be written: status 3.
    Output(io::Error),
}

/// What a command comes to.
pub type Outcome<T = ()> = Result<T, Failure>;

impl Failure {
    /// The exit status.
    pub fn status(&self) -> u8 {
        match self {
            Failure::Refused(_) => 1,
            Failure::Usage(..) => 2,
            Failure::Io(_) | Failure::Output(_) => 3,
        }
    }

    /// The same failure with one sentence more on what was left, before the number where there is one.
    pub fn with(self, left: &str) -> Failure {
        let added = |words: String| match words.rfind(" [") {
            Some(place) => format!("{} {left}{}", &words[..place], &words[place..]),
            None => format!("{}. {}", words.trim_end_matches('.'), left.trim_end_matches('.')),
        };
        match self {
            Failure::Refused(words) => Failure::Refused(added(words)),
            Failure::Io(words) => Failure::Io(added(words)),
            other => other,
        }
    }

    /// The words that follow `card: `; `None` where the other end of a pipe has gone, which nobody is to be told.
    pub fn words(&self) -> Option<String> {
        match self {
            Failure::Refused(words) | Failure::Io(words) => Some(words.clone()),
            Failure::Usage(words, "") => Some(format!("{words}; see: card help")),
            Failure::Usage(words, command) => Some(format!("{words}; see: card help {command}")),
            Failure::Output(failure) if failure.kind() == io::ErrorKind::BrokenPipe => None,
            Failure::Output(failure) => Some(format!("cannot write the output: {}", system_words(failure))),
        }
    }
}

/// What the system says of a failure, without the number that Rust adds.
pub fn system_words(failure: &io::Error) -> String {
    let words = failure.to_string();
    match words.rfind(" (os error ") {
        Some(end) => words[..end].to_string(),
        None => words,
    }
}

/// A failure to read or write, with what was read or written.
pub fn io_failure(what: &str, failure: &io::Error) -> Failure {
    Failure::Io(format!("{what}: {}", system_words(failure)))
}
