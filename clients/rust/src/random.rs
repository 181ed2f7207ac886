//! The source of a device's random bytes.

use crate::native::{self, RANDOM_BYTES};
use crate::shake::shake256;
use std::io;

/// The random bytes that a command may draw.
pub(crate) enum Source {
    /// Bytes from the system. Those that a command did not draw are passed to the next command.
    System([u8; RANDOM_BYTES]),
    /// Bytes that are derived from a seed. The fields are the bytes, the seed, and the number of
    /// commands that have received their bytes.
    Seed([u8; RANDOM_BYTES], Vec<u8>, u64),
}

impl Source {
    /// Makes a source of system bytes.
    pub(crate) fn system() -> io::Result<Source> {
        let mut bytes = [0; RANDOM_BYTES];
        native::draw(&mut bytes)?;
        Ok(Source::System(bytes))
    }

    /// Makes a source of bytes from a seed.
    pub(crate) fn of_seed(seed: &[u8]) -> Source {
        Source::Seed([0; RANDOM_BYTES], seed.to_vec(), 0)
    }

    /// Returns the bytes that the next command may draw.
    pub(crate) fn next(&mut self) -> &[u8; RANDOM_BYTES] {
        if let Source::Seed(bytes, seed, count) = self {
            *count += 1;
            *bytes = shake256(&[seed.as_slice(), count.to_string().as_bytes()].concat());
        }
        self.bytes()
    }

    /// Returns the bytes that the last command could draw. Some of them may have been replaced
    /// since.
    pub(crate) fn bytes(&self) -> &[u8; RANDOM_BYTES] {
        match self {
            Source::System(bytes) | Source::Seed(bytes, ..) => bytes,
        }
    }

    /// Replaces the bytes that a command drew.
    pub(crate) fn renew(&mut self, drawn: usize) -> io::Result<()> {
        match self {
            Source::System(bytes) => native::draw(&mut bytes[..drawn]),
            Source::Seed(..) => Ok(()),
        }
    }
}

/// Returns the random bytes from which a new device derives its seeds and its proofs.
pub(crate) fn of_new_device(seed: Option<&[u8]>) -> io::Result<[u8; RANDOM_BYTES]> {
    let mut bytes = [0; RANDOM_BYTES];
    match seed {
        Some(seed) => bytes = shake256(seed),
        None => native::draw(&mut bytes)?,
    }
    Ok(bytes)
}
