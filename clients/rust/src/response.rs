//! The responses of a device.

use crate::code::{name_of, Check, ResponseCode};
use crate::names::COMMANDS;
use crate::native::Outcome;
use std::fmt;

/// The size of the header of a response: tag, size and code.
const HEADER_BYTES: usize = 10;

/// A response, and the check that refused its command.
#[derive(Clone, PartialEq, Eq, Hash)]
pub struct Response {
    bytes: Vec<u8>,
    command: u32,
    check: Check,
}

impl Response {
    /// Makes a response from the result of a command and the command's buffer, which contains the
    /// code of a command that the device does not have.
    pub(crate) fn of(outcome: Outcome, buffer: &[u8]) -> Response {
        let Outcome { response: bytes, code, check, .. } = outcome;
        let command = match (code, buffer.get(HEADER_BYTES - 4..HEADER_BYTES)) {
            (0, Some(code)) => number_of(code),
            _ => code,
        };
        Response { bytes, command, check: Check::of(check) }
    }

    /// Returns the whole response, with its header.
    pub fn bytes(&self) -> &[u8] {
        &self.bytes
    }

    /// Returns the whole response, with its header.
    pub fn into_bytes(self) -> Vec<u8> {
        self.bytes
    }

    /// The response code.
    pub fn code(&self) -> ResponseCode {
        ResponseCode(number_of(&self.bytes[HEADER_BYTES - 4..HEADER_BYTES]))
    }

    /// Returns the check that refused the command.
    pub fn check(&self) -> Check {
        self.check
    }

    /// Returns the bytes after the header.
    ///
    /// # Errors
    ///
    /// The refusal, if the command was refused.
    pub fn accepted(&self) -> Result<&[u8], Refusal> {
        match self.code() {
            ResponseCode::SUCCESS => Ok(&self.bytes[HEADER_BYTES..]),
            code => Err(Refusal { command: self.command, code, check: self.check }),
        }
    }
}

impl AsRef<[u8]> for Response {
    fn as_ref(&self) -> &[u8] {
        &self.bytes
    }
}

impl fmt::Debug for Response {
    /// Writes the bytes in hex, and the names of the command, the code and the check.
    ///
    /// ```
    /// # fn main() -> tpmsim::Result<()> {
    /// let response = tpmsim::Device::new()?.execute(&[0x80, 1, 0, 0, 0, 10, 0, 0, 1, 0x81]);
    /// let shown = "Response { bytes: 80010000000a00000100, command: ReadClock, \
    ///              code: INITIALIZE (100), check: G5 }";
    /// assert_eq!(format!("{response:?}"), shown);
    /// # Ok(())
    /// # }
    /// ```
    fn fmt(&self, out: &mut fmt::Formatter<'_>) -> fmt::Result {
        let hex: String = self.bytes.iter().map(|byte| format!("{byte:02x}")).collect();
        out.debug_struct("Response")
            .field("bytes", &format_args!("{hex}"))
            .field("command", &format_args!("{}", CommandName(self.command)))
            .field("code", &self.code())
            .field("check", &self.check)
            .finish()
    }
}

/// The refusal of a command by a device, with the reason.
///
/// ```
/// # fn main() -> tpmsim::Result<()> {
/// let mut tpm = tpmsim::Device::new()?;
/// let get_random = [0x80, 1, 0, 0, 0, 12, 0, 0, 1, 0x7b, 0, 4];
/// let refusal = tpm.execute(&get_random).accepted().unwrap_err();
/// assert_eq!(refusal.to_string(), "GetRandom: INITIALIZE (100), by G5");
/// # Ok(())
/// # }
/// ```
#[derive(Clone, Copy, PartialEq, Eq, Hash)]
pub struct Refusal {
    command: u32,
    code: ResponseCode,
    check: Check,
}

impl Refusal {
    /// Returns the command code (TPM_CC) of the refused command, even if the device has no such
    /// command, or 0 if the buffer had none.
    pub fn command(&self) -> u32 {
        self.command
    }

    /// The response code.
    pub fn code(&self) -> ResponseCode {
        self.code
    }

    /// Returns the check that refused the command.
    pub fn check(&self) -> Check {
        self.check
    }
}

impl fmt::Display for Refusal {
    fn fmt(&self, out: &mut fmt::Formatter<'_>) -> fmt::Result {
        let Refusal { command, code, check } = *self;
        write!(out, "{}", CommandName(command))?;
        if check == Check::General(4) {
            write!(out, " ({command:X}): ")?;
            match name_of(COMMANDS, command.swap_bytes()) {
                Some(name) => write!(out, "its bytes in the other order are {name}")?,
                None => out.write_str("tpmsim has no such command")?,
            }
        }
        write!(out, ": {code}, by {check}")
    }
}

impl fmt::Debug for Refusal {
    /// Writes the same as `Display`, because `main` and `unwrap` print an error in this form.
    fn fmt(&self, out: &mut fmt::Formatter<'_>) -> fmt::Result {
        fmt::Display::fmt(self, out)
    }
}

/// Returns a number of four bytes, the most significant byte first.
fn number_of(bytes: &[u8]) -> u32 {
    bytes.iter().fold(0, |number, byte| number << 8 | u32::from(*byte))
}

/// Displays a command by its name.
struct CommandName(u32);

impl fmt::Display for CommandName {
    fn fmt(&self, out: &mut fmt::Formatter<'_>) -> fmt::Result {
        match name_of(COMMANDS, self.0) {
            Some(name) => out.write_str(name),
            None => out.write_str("unknown command"),
        }
    }
}

impl std::error::Error for Refusal {}
