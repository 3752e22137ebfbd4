//! Standard output. A text that did not arrive must not look like success.

use crate::failure::Failure;
use std::io::{self, ErrorKind, Write};

pub struct Output {
    stream: io::Stdout,
}

impl Output {
    pub fn standard() -> Output {
        Output { stream: io::stdout() }
    }

    /// Prints the text at once, so that it is seen before what takes time.
    pub fn say(&mut self, text: &str) -> Result<(), Failure> {
        self.write(text.as_bytes())
    }

    /// The same of bytes.
    pub fn write(&mut self, bytes: &[u8]) -> Result<(), Failure> {
        self.stream.write_all(bytes).map_err(failure)?;
        self.finish()
    }

    pub fn finish(&mut self) -> Result<(), Failure> {
        self.stream.flush().map_err(failure)
    }
}

fn failure(error: io::Error) -> Failure {
    match error.kind() {
        ErrorKind::BrokenPipe => Failure::BrokenPipe,
        _ => Failure::Other(format!("standard output: {error}")),
    }
}
