//! How far a long command is, on standard error if that is a terminal or if it was asked for.
use crate::args::Args;
use crate::words;
use std::io::{self, IsTerminal, Write};
use std::time::{Duration, Instant};

/// A line that is written over and over.
pub struct Progress {
    shown: bool,
    what: &'static str,
    all: Option<u64>,
    last: Option<Instant>,
}

impl Progress {
    /// Of so many bytes, or of an unknown number.
    pub fn new(args: &Args, what: &'static str, all: Option<u64>) -> Progress {
        Progress { shown: args.has("progress") || io::stderr().is_terminal(), what, all, last: None }
    }

    /// The next part of the work.
    pub fn begin(&mut self, what: &'static str) {
        self.what = what;
        self.last = None;
    }

    /// So many bytes are done. The line is written ten times a second at most, and a failure to write it is no matter.
    pub fn at(&mut self, done: u64) {
        let late = self.last.map_or(true, |last| last.elapsed() >= Duration::from_millis(100));
        if !self.shown || !late && Some(done) != self.all {
            return;
        }
        self.last = Some(Instant::now());
        let all = self.all.map_or(String::new(), |all| format!(" of {}", words::size(all)));
        let _ = write!(io::stderr(), "\r\x1b[K{}{all} {}", words::size(done), self.what);
    }

    /// Takes the line away.
    pub fn end(&mut self) {
        if self.shown {
            let _ = write!(io::stderr(), "\r\x1b[K");
        }
    }
}
