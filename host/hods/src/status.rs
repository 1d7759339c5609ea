//! How a run ends, and why it could not do its work.

use std::fmt;
use std::io;

use hodsplinter::Refusal;

/// The exit status of a run; of several books the highest counts.
#[derive(Clone, Copy, Debug, PartialEq, Eq, PartialOrd, Ord)]
pub enum Status {
    Good = 0,
    /// A rule of docs/FORMAT.md refused something, a name is absent, or two books differ.
    Refused = 1,
    /// Wrong usage, or something could not be read or written.
    Failed = 2,
}

/// Why there is no result: one message for standard error.
#[derive(Clone, Debug)]
pub struct Trouble {
    pub status: Status,
    /// The refusal of a book, for the frames.
    pub refusal: Option<Refusal>,
    text: String,
}

impl Trouble {
    /// The command line cannot be followed.
    pub fn usage(text: impl fmt::Display) -> Trouble {
        Trouble {
            status: Status::Failed,
            refusal: None,
            text: format!("{text}; `hods --help` shows the usage"),
        }
    }

    /// Something cannot be read or written.
    pub fn failed(subject: &str, why: impl fmt::Display) -> Trouble {
        Trouble {
            status: Status::Failed,
            refusal: None,
            text: format!("{subject}: {why}"),
        }
    }

    /// The system refused to read or write something.
    pub fn io(subject: &str, error: &io::Error) -> Trouble {
        Trouble::failed(subject, reason(error))
    }

    /// A rule refused something.
    pub fn refused(subject: &str, why: impl fmt::Display) -> Trouble {
        Trouble {
            status: Status::Refused,
            ..Trouble::failed(subject, why)
        }
    }

    /// The same, with the refusal itself.
    pub fn by(self, refusal: Refusal) -> Trouble {
        Trouble {
            refusal: Some(refusal),
            ..self
        }
    }
}

impl fmt::Display for Trouble {
    fn fmt(&self, f: &mut fmt::Formatter<'_>) -> fmt::Result {
        write!(f, "hods: {}", self.text)
    }
}

/// An error's text without the number that the standard library puts behind it.
fn reason(error: &io::Error) -> String {
    let text = error.to_string();
    match text.find(" (os error") {
        Some(end) => text[..end].to_string(),
        None => text,
    }
}
