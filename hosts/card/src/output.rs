//! What a command says on standard output: kept until it is whole, and written at once.
use crate::failure::{Failure, Outcome};
use crate::system;
use std::io::{self, Write};

/// The text so far, and whether bytes of a card were changed before it could be written.
#[derive(Default)]
pub struct Out {
    text: String,
    pub changed: bool,
}

impl Out {
    /// A line.
    pub fn line(&mut self, line: String) {
        self.text += &line;
        self.text.push('\n');
    }

    /// Whole lines.
    pub fn text(&mut self, text: &str) {
        self.text += text;
    }

    /// Writes what there is.
    pub fn write(&mut self) -> Outcome {
        let text = std::mem::take(&mut self.text);
        self.bytes(text.as_bytes())
    }

    /// Writes bytes as they are.
    pub fn bytes(&mut self, bytes: &[u8]) -> Outcome {
        if bytes.is_empty() {
            return Ok(());
        }
        let mut output = io::stdout().lock();
        output.write_all(bytes).and_then(|()| output.flush()).map_err(Failure::Output)
    }
}

/// An output that was closed is said before anything is done.
pub fn open() -> Outcome {
    match system::output_was_closed() {
        true => Err(Failure::Output(io::Error::from_raw_os_error(9))),
        false => Ok(()),
    }
}
