//! Response codes and checks, and their names.

use crate::names::CODES;
use std::fmt;

/// Returns the name for a number in a table.
pub(crate) fn name_of(table: &[(u32, &'static str)], number: u32) -> Option<&'static str> {
    table.iter().find(|(of, _)| *of == number).map(|(_, name)| *name)
}

/// The handle, parameter or authorization entry to which a response code refers.
#[derive(Clone, Copy, Debug, PartialEq, Eq, Hash)]
pub enum Place {
    /// A handle, with its number from 1.
    Handle(u8),
    /// A parameter, with its number from 1.
    Parameter(u8),
    /// An entry of the authorization area, with its number from 1.
    Session(u8),
}

impl fmt::Display for Place {
    fn fmt(&self, out: &mut fmt::Formatter<'_>) -> fmt::Result {
        match self {
            Place::Handle(number) => write!(out, "h{number}"),
            Place::Parameter(number) => write!(out, "p{number}"),
            Place::Session(number) => write!(out, "s{number}"),
        }
    }
}

/// A response code, TPM_RC.
///
/// ```
/// use tpmsim::{Place, ResponseCode};
///
/// let code = ResponseCode(0x98e);
/// assert_eq!(code.name(), Some("AUTH_FAIL"));
/// assert_eq!(code.place(), Some(Place::Session(1)));
/// assert_eq!(code.to_string(), "AUTH_FAIL/s1 (98E)");
/// ```
#[derive(Clone, Copy, PartialEq, Eq, Hash)]
pub struct ResponseCode(
    /// The number of the response.
    pub u32,
);

impl ResponseCode {
    /// The response code of a command that succeeded.
    pub const SUCCESS: ResponseCode = ResponseCode(0);

    /// If this is a format-one code, returns it without the number of a handle, parameter or
    /// session.
    fn with_a_place(self) -> Option<u32> {
        (self.0 & 0x080 != 0 && self.0 >> 8 != 0).then_some(self.0 & 0x0bf)
    }

    /// Returns the name without the handle, parameter or session, such as `AUTH_FAIL`, or `None`
    /// for a code that this device never returns.
    pub fn name(self) -> Option<&'static str> {
        match self {
            ResponseCode::SUCCESS => Some("SUCCESS"),
            code => name_of(CODES, code.with_a_place().unwrap_or(code.0)),
        }
    }

    /// Returns the handle, parameter or entry to which the code refers.
    pub fn place(self) -> Option<Place> {
        self.with_a_place()?;
        let number = (self.0 >> 8 & 0x0f) as u8;
        Some(if self.0 & 0x040 != 0 {
            Place::Parameter(number)
        } else if number & 8 != 0 {
            Place::Session(number - 8)
        } else {
            Place::Handle(number)
        })
    }
}

impl fmt::Display for ResponseCode {
    fn fmt(&self, out: &mut fmt::Formatter<'_>) -> fmt::Result {
        out.write_str(self.name().unwrap_or("unknown"))?;
        if let Some(place) = self.place() {
            write!(out, "/{place}")?;
        }
        match self.0 {
            0 => Ok(()),
            number => write!(out, " ({number:03X})"),
        }
    }
}

impl fmt::Debug for ResponseCode {
    /// Writes the same as `Display`, so that a failed assertion shows the name.
    fn fmt(&self, out: &mut fmt::Formatter<'_>) -> fmt::Result {
        fmt::Display::fmt(self, out)
    }
}

/// The check that refused a command. It is displayed by its name, as in traces and in docs/table.
///
/// ```
/// # fn main() -> tpmsim::Result<()> {
/// let response = tpmsim::Device::new()?.execute(&[]);
/// assert_eq!(response.check().to_string(), "G1");
/// # Ok(())
/// # }
/// ```
#[derive(Clone, Copy, PartialEq, Eq, Hash)]
pub enum Check {
    /// No check refused the command.
    Passed,
    /// A check for all commands, G1 to G11.
    General(u8),
    /// One of the command's own checks, A1 and up.
    Own(u8),
    /// Out of memory.
    Memory,
}

impl Check {
    /// Returns the check for a number that the library returns.
    pub(crate) fn of(number: u8) -> Check {
        match number {
            0 => Check::Passed,
            255 => Check::Memory,
            1..=20 => Check::General(number),
            _ => Check::Own(number - 20),
        }
    }
}

impl fmt::Display for Check {
    fn fmt(&self, out: &mut fmt::Formatter<'_>) -> fmt::Result {
        match self {
            Check::Passed => out.write_str("ok"),
            Check::General(number) => write!(out, "G{number}"),
            Check::Own(number) => write!(out, "A{number}"),
            Check::Memory => out.write_str("M"),
        }
    }
}

impl fmt::Debug for Check {
    /// Writes the same as `Display`.
    fn fmt(&self, out: &mut fmt::Formatter<'_>) -> fmt::Result {
        fmt::Display::fmt(self, out)
    }
}

#[cfg(test)]
mod tests {
    use super::{Check, ResponseCode};

    #[test]
    fn each_place_is_told() {
        let spelled = [0x1c4, 0x18b, 0x9a2, 0x084, 0x907, 0x14a, 0, 0xfff]
            .map(|number| ResponseCode(number).to_string());
        assert_eq!(
            spelled,
            [
                "VALUE/p1 (1C4)",
                "HANDLE/h1 (18B)",
                "BAD_AUTH/s1 (9A2)",
                "VALUE (084)",
                "LOCALITY (907)",
                "NV_UNINITIALIZED (14A)",
                "SUCCESS",
                "unknown/p15 (FFF)"
            ]
        );
    }

    #[test]
    fn each_check_has_its_name() {
        let spelled = [0, 1, 11, 21, 27, 255].map(|number| Check::of(number).to_string());
        assert_eq!(spelled, ["ok", "G1", "G11", "A1", "A7", "M"]);
    }
}
