//! The log of a device, which `tpmsim-explain` and `tpmsim-audit` read.

use crate::native::Executor;
use std::fmt::Write;

/// The line before a command that was executed with the completing layer above the device.
const COMPLETED: &str = "# completed";

/// Lines of a script, with the responses as comments.
pub(crate) struct Log {
    text: String,
}

impl Log {
    /// Starts a log that begins with a device's state text.
    pub(crate) fn of_state(state_text: &[u8]) -> Log {
        let mut log = Log { text: String::new() };
        log.bytes("# state ", state_text);
        log
    }

    /// The whole text.
    pub(crate) fn text(&self) -> &str {
        &self.text
    }

    /// Adds a line.
    pub(crate) fn line(&mut self, line: &str) {
        self.text.push_str(line);
        self.text.push('\n');
    }

    /// Adds a command, what executed it, the random bytes that it drew, and its response.
    pub(crate) fn command(&mut self, by: Executor, buffer: &[u8], drawn: &[u8], response: &[u8]) {
        if let Executor::Completed = by {
            self.line(COMPLETED);
        }
        if !drawn.is_empty() {
            self.bytes("entropy ", drawn);
        }
        self.bytes("cmd ", buffer);
        self.bytes("# ", response);
    }

    /// Adds a word followed by bytes in hex.
    fn bytes(&mut self, word: &str, bytes: &[u8]) {
        self.text.push_str(word);
        for byte in bytes {
            let _ = write!(self.text, "{byte:02x}"); // writing to a string cannot fail
        }
        self.text.push('\n');
    }
}
