//! Standard output, and messages on standard error.

use std::io::{self, BufWriter, ErrorKind, Stdout, Write};

use crate::status::Trouble;

/// Standard output. A reader that has gone away (a closed pipe) is no trouble: what follows is dropped, and commands that only print stop.
pub struct Output {
    to: BufWriter<Stdout>,
    closed: bool,
}

impl Output {
    pub fn new() -> Output {
        Output {
            to: BufWriter::with_capacity(1 << 16, io::stdout()),
            closed: false,
        }
    }

    /// Whether nobody reads any more.
    pub fn closed(&self) -> bool {
        self.closed
    }

    pub fn write(&mut self, bytes: &[u8]) -> Result<(), Trouble> {
        if self.closed {
            return Ok(());
        }
        let done = self.to.write_all(bytes);
        self.judge(done)
    }

    pub fn line(&mut self, text: &str) -> Result<(), Trouble> {
        self.write(text.as_bytes())?;
        self.write(b"\n")
    }

    pub fn flush(&mut self) -> Result<(), Trouble> {
        if self.closed {
            return Ok(());
        }
        let done = self.to.flush();
        self.judge(done)
    }

    fn judge(&mut self, done: io::Result<()>) -> Result<(), Trouble> {
        match done {
            Err(error) if error.kind() == ErrorKind::BrokenPipe => {
                self.closed = true;
                Ok(())
            }
            Err(error) => Err(Trouble::io("standard output", &error)),
            Ok(()) => Ok(()),
        }
    }

    /// Says a trouble on standard error, behind what was printed so far. If nobody reads there either, the exit status still tells.
    pub fn complain(&mut self, trouble: &Trouble) -> Result<(), Trouble> {
        self.flush()?;
        say(trouble);
        Ok(())
    }
}

/// A line on standard error.
pub fn say(trouble: &Trouble) {
    let _ = writeln!(io::stderr(), "{trouble}");
}
