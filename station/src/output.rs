//! Standard output, the exit status, and what went wrong.

use std::io::{self, BufWriter, ErrorKind, Stdout, Write};

/// How the program ends, the worst last.
#[derive(Clone, Copy, Debug, Default, PartialEq, Eq, PartialOrd, Ord)]
pub enum Status {
    #[default]
    Accepted,
    Refused,
    Trouble,
}

impl Status {
    /// Of a verdict: what came of it, or the refusal.
    pub fn of<T, E>(verdict: &Result<T, E>) -> Status {
        match verdict {
            Ok(_) => Status::Accepted,
            Err(_) => Status::Refused,
        }
    }

    pub fn code(self) -> u8 {
        match self {
            Status::Accepted => 0,
            Status::Refused => 1,
            Status::Trouble => 2,
        }
    }
}

/// Bad usage, or a file that cannot be read or written: the message says which and what to do.
#[derive(Debug)]
pub struct Trouble(pub String);

impl Trouble {
    /// Prints the message, where there is somebody to read it.
    pub fn print(&self) {
        say(&format!("mctc: {}\n", self.0));
    }
}

impl From<io::Error> for Trouble {
    fn from(error: io::Error) -> Trouble {
        Trouble(format!("standard output: {error}"))
    }
}

/// To standard error. A closed one changes nothing.
pub fn say(text: &str) {
    let _ = io::stderr().write_all(text.as_bytes());
}

/// Standard output. Once its reader is gone (`mctc judge FOLDER | head`) nothing more is printed, and the program goes
/// on to its exit status, which no reader changes.
pub struct Output {
    inner: BufWriter<Stdout>,
    closed: bool,
}

impl Output {
    pub fn standard() -> Output {
        Output {
            inner: BufWriter::new(io::stdout()),
            closed: false,
        }
    }

    pub fn text(&mut self, text: &str) -> Result<(), Trouble> {
        self.bytes(text.as_bytes())
    }

    pub fn bytes(&mut self, bytes: &[u8]) -> Result<(), Trouble> {
        self.unless_closed(|inner| inner.write_all(bytes))
    }

    pub fn finish(&mut self) -> Result<(), Trouble> {
        self.unless_closed(BufWriter::flush)
    }

    fn unless_closed(
        &mut self,
        write: impl FnOnce(&mut BufWriter<Stdout>) -> io::Result<()>,
    ) -> Result<(), Trouble> {
        if self.closed {
            return Ok(());
        }
        match write(&mut self.inner) {
            Err(error) if error.kind() == ErrorKind::BrokenPipe => {
                self.closed = true;
                Ok(())
            }
            result => Ok(result?),
        }
    }
}
