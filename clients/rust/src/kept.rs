//! A device that is kept in a folder.

use crate::device::{valid, STARTUP};
use crate::error::{Error, Result};
use crate::native::NativeKept;
use crate::response::Response;
use crate::transport::Transport;
use std::fmt;
use std::path::{Path, PathBuf};

/// A device that is kept in a folder, which several processes may use at once. Its journal is what
/// `tpmsim-explain` reads, and the folder is one for `tpmsim serve --state` and libtss2's module.
///
/// The record of each command is in the folder before the response is returned. Time is the host's
/// clock, and the random bytes are the system's. The calls need the file `libtpmsim-kept.so.0`,
/// which they load from the folder of the linked libtpmsim or, if it is not there, from where the
/// loader looks for libraries. Each call needs 128 KB of stack.
///
/// ```
/// # fn main() -> Result<(), Box<dyn std::error::Error>> {
/// let folder = std::env::temp_dir().join(format!("tpmsim-{}", std::process::id()));
/// let get_random = [0x80, 1, 0, 0, 0, 12, 0, 0, 1, 0x7b, 0, 4];
/// tpmsim::KeptDevice::open(&folder)?.start_up()?;
/// let mut again = tpmsim::KeptDevice::open(&folder)?;
/// assert_eq!(again.execute(&get_random)?.accepted()?.len(), 2 + 4);
/// # drop(again);
/// # std::fs::remove_dir_all(&folder)?;
/// # Ok(())
/// # }
/// ```
pub struct KeptDevice {
    native: NativeKept,
    folder: PathBuf,
    locality: u8,
}

impl KeptDevice {
    /// Opens the device in a folder. If the folder or the device is missing, the call makes it; a
    /// new device expects TPM2_Startup.
    ///
    /// # Errors
    ///
    /// [`Error::Kept`], as for all calls of this type: the sentence names the path, and the system's
    /// reason.
    pub fn open(folder: impl AsRef<Path>) -> Result<KeptDevice> {
        let folder = folder.as_ref().to_path_buf();
        let native = NativeKept::open(&folder).map_err(Error::Kept)?;
        Ok(KeptDevice { native, folder, locality: 0 })
    }

    /// Executes a command, whatever its bytes are.
    ///
    /// # Errors
    ///
    /// [`Error::Kept`]. The next call starts from the journal, which may contain the command.
    pub fn execute(&mut self, buffer: &[u8]) -> Result<Response> {
        self.executed(buffer, false)
    }

    /// Executes a command with the completing layer above the device.
    ///
    /// # Errors
    ///
    /// Like [`KeptDevice::execute`].
    pub fn complete(&mut self, buffer: &[u8]) -> Result<Response> {
        self.executed(buffer, true)
    }

    /// Executes TPM2_Startup(CLEAR).
    ///
    /// # Errors
    ///
    /// [`Error::Refused`] if the device is already started; [`Error::Kept`].
    pub fn start_up(&mut self) -> Result<()> {
        self.execute(&STARTUP)?.accepted()?;
        Ok(())
    }

    /// Sets the locality of the next commands of this handle, 0 to 4.
    ///
    /// # Errors
    ///
    /// [`Error::Locality`] for a higher number.
    pub fn set_locality(&mut self, locality: u8) -> Result<()> {
        self.locality = valid(locality)?;
        Ok(())
    }

    /// Power-cycles the device, for every process that uses it.
    ///
    /// # Errors
    ///
    /// [`Error::Kept`].
    pub fn power_cycle(&mut self) -> Result<()> {
        self.native.power_cycle().map_err(Error::Kept)
    }

    /// Returns the state text, which contains all secrets.
    ///
    /// # Errors
    ///
    /// [`Error::Kept`].
    pub fn snapshot(&mut self) -> Result<Vec<u8>> {
        self.native.state_text().map_err(Error::Kept)
    }

    /// Replaces the device with the one in a state text, for every process that uses it.
    ///
    /// # Errors
    ///
    /// [`Error::Kept`]. If the bytes are not a state text, the device is unchanged.
    pub fn restore(&mut self, text: &[u8]) -> Result<()> {
        self.native.restore(text).map_err(Error::Kept)
    }

    /// Executes a command.
    fn executed(&mut self, buffer: &[u8], completes: bool) -> Result<Response> {
        let outcome = self.native.execute(buffer, self.locality, completes);
        Ok(Response::of(outcome.map_err(Error::Kept)?, buffer))
    }
}

impl Transport for KeptDevice {
    type Error = Error;

    fn transmit(&mut self, command: &[u8]) -> Result<Vec<u8>> {
        Ok(self.execute(command)?.into_bytes())
    }
}

impl fmt::Debug for KeptDevice {
    /// Writes no secrets.
    fn fmt(&self, out: &mut fmt::Formatter<'_>) -> fmt::Result {
        let KeptDevice { folder, locality, .. } = self;
        out.debug_struct("KeptDevice")
            .field("folder", folder)
            .field("locality", locality)
            .finish_non_exhaustive()
    }
}
