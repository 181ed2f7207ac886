//! Devices with the interfaces that TPM libraries expect.

use crate::device::Device;
use std::io::{self, Read, Write};

/// A transport to a TPM: sends a command and returns its response.
///
/// If a TPM library has its own trait for transports, implement that trait with this one.
pub trait Transport {
    /// The type of error for a failed transmission.
    type Error;

    /// Sends a command and returns its response.
    ///
    /// # Errors
    ///
    /// An error means that the transmission failed. If the TPM refuses a command, there is a
    /// response.
    fn transmit(&mut self, command: &[u8]) -> Result<Vec<u8>, Self::Error>;
}

impl Transport for Device {
    type Error = crate::Error;

    fn transmit(&mut self, command: &[u8]) -> crate::Result<Vec<u8>> {
        Ok(self.execute(command).into_bytes())
    }
}

/// A device that behaves like the file `/dev/tpm0`: each write is a command, and the reads after it
/// return its response.
///
/// ```
/// use std::io::{Read, Write};
///
/// # fn main() -> Result<(), Box<dyn std::error::Error>> {
/// let mut file = tpmsim::DeviceFile::new(tpmsim::Device::new()?);
/// file.write_all(&[0x80, 1, 0, 0, 0, 12, 0, 0, 1, 0x44, 0, 0])?;
/// let mut response = [0; 4096];
/// assert_eq!(file.read(&mut response)?, 10);
/// # Ok(())
/// # }
/// ```
pub struct DeviceFile {
    device: Device,
    response: Vec<u8>,
    taken: usize,
}

impl DeviceFile {
    /// Makes a file for a device.
    pub fn new(device: Device) -> DeviceFile {
        DeviceFile { device, response: Vec::new(), taken: 0 }
    }

    /// Returns the device, so that its locality, time or power can be changed.
    pub fn device(&mut self) -> &mut Device {
        &mut self.device
    }
}

impl Write for DeviceFile {
    fn write(&mut self, command: &[u8]) -> io::Result<usize> {
        self.response = self.device.execute(command).into_bytes();
        self.taken = 0;
        Ok(command.len())
    }

    fn flush(&mut self) -> io::Result<()> {
        Ok(())
    }
}

impl Read for DeviceFile {
    fn read(&mut self, buffer: &mut [u8]) -> io::Result<usize> {
        let count = (&self.response[self.taken..]).read(buffer)?;
        self.taken += count;
        Ok(count)
    }
}
