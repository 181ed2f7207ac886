//! The errors, with their messages.

use crate::response::Refusal;
use std::fmt;
use std::io;

/// The reason why bytes are not an image or a state text, in the order of the checks.
#[derive(Clone, Copy, Debug, PartialEq, Eq, Hash)]
pub enum Fault {
    /// There are fewer than 42 bytes.
    Short,
    /// The bytes do not begin like an image or a state text.
    Magic,
    /// The version is unknown.
    Version,
    /// The length field does not match the number of bytes.
    Length,
    /// The last 32 bytes are not the SHA-256 of the bytes before them.
    Digest,
    /// The body does not encode a state.
    Body,
    /// The state text has version 1, which is no longer read.
    Earlier,
}

/// The faults of images and state texts, in the order of their numbers in the header.
const FAULTS: [Fault; 6] =
    [Fault::Short, Fault::Magic, Fault::Version, Fault::Length, Fault::Digest, Fault::Body];

/// The number of `Fault::Earlier` in the header.
const EARLIER: u8 = 21;

impl fmt::Display for Fault {
    fn fmt(&self, out: &mut fmt::Formatter<'_>) -> fmt::Result {
        out.write_str(match self {
            Fault::Short => "there are fewer than 42 bytes",
            Fault::Magic => "they begin otherwise",
            Fault::Version => "their version is not known",
            Fault::Length => "there are not as many bytes as they say",
            Fault::Digest => "their digest is another one",
            Fault::Body => "they spell no state",
            Fault::Earlier => "they have version 1, which is no longer read",
        })
    }
}

/// The reason why a call to this package failed.
#[derive(Debug)]
#[non_exhaustive]
pub enum Error {
    /// The system provides no random bytes.
    Random(io::Error),
    /// Memory for a device could not be allocated.
    Memory,
    /// The bytes are not an image.
    Image(Fault),
    /// The bytes are not a state text.
    State(Fault),
    /// The locality is not 0 to 4.
    Locality(u8),
    /// More than 4,294,967,295 milliseconds would pass before a command.
    Wait,
    /// A device in a folder failed, with the reason.
    Kept(String),
    /// The device refuses the command.
    Refused(Refusal),
}

/// A value, or the error.
pub type Result<T> = std::result::Result<T, Error>;

impl Error {
    /// Converts the return code of a library call that failed. `first` is the return code for the
    /// first entry of `FAULTS`.
    pub(crate) fn of(told: u8, first: u8, kind: fn(Fault) -> Error) -> Error {
        if told == EARLIER {
            return kind(Fault::Earlier);
        }
        match told.checked_sub(first).and_then(|at| FAULTS.get(usize::from(at))) {
            Some(fault) => kind(*fault),
            None => Error::Memory,
        }
    }
}

impl fmt::Display for Error {
    fn fmt(&self, out: &mut fmt::Formatter<'_>) -> fmt::Result {
        match self {
            Error::Random(_) => out.write_str("the system has no random bytes"),
            Error::Memory => out.write_str("there is no memory for a device"),
            Error::Image(fault) => write!(out, "the bytes are no image: {fault}"),
            Error::State(fault) => write!(out, "the bytes are no state text: {fault}"),
            Error::Locality(number) => write!(out, "a locality is 0 to 4, and not {number}"),
            Error::Wait => out.write_str("at most 4294967295 milliseconds pass before a command"),
            Error::Kept(reason) => out.write_str(reason),
            Error::Refused(refusal) => fmt::Display::fmt(refusal, out),
        }
    }
}

impl std::error::Error for Error {
    fn source(&self) -> Option<&(dyn std::error::Error + 'static)> {
        match self {
            Error::Random(fault) => Some(fault),
            Error::Refused(refusal) => Some(refusal),
            _ => None,
        }
    }
}

impl From<Refusal> for Error {
    fn from(refusal: Refusal) -> Error {
        Error::Refused(refusal)
    }
}
