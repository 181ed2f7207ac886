//! A device.

use crate::error::{Error, Result};
use crate::log::Log;
use crate::native::{Circumstances, Executor, Native, DONE};
use crate::random::{self, Source};
use crate::response::Response;
use std::fmt;
use std::time::Duration;

/// The return codes, from the library's header, for the first fault of an image and for the first
/// fault of a state text.
const FIRST_IMAGE_FAULT: u8 = 4;
const FIRST_STATE_FAULT: u8 = 13;

/// The highest locality.
const LAST_LOCALITY: u8 = 4;

/// TPM2_Startup(CLEAR).
pub(crate) const STARTUP: [u8; 12] = [0x80, 1, 0, 0, 0, 12, 0, 0, 1, 0x44, 0, 0];

/// A TPM in this process. It needs 82 KB of memory, shares nothing, and is freed when it is
/// dropped.
///
/// It may move between threads, but only one thread can use it at a time: it is [`Send`], but not
/// [`Sync`]. A call needs 96 KB of stack.
///
/// ```compile_fail
/// fn shared<T: Sync>(_: T) {}
/// shared(tpmsim::Device::new().unwrap());
/// ```
pub struct Device {
    native: Native,
    source: Source,
    locality: u8,
    elapsed: u32,
    log: Option<Log>,
}

impl Device {
    /// Makes a new device, with secrets and random bytes from the system. It has just been powered
    /// on, and expects TPM2_Startup.
    ///
    /// # Errors
    ///
    /// [`Error::Memory`], [`Error::Random`].
    pub fn new() -> Result<Device> {
        Device::manufactured(None, Source::system().map_err(Error::Random)?)
    }

    /// Makes a new device whose secrets and random bytes are derived from a seed, and are therefore
    /// the same in each run. In Python and Go, the same seed results in the same device.
    ///
    /// # Errors
    ///
    /// [`Error::Memory`].
    ///
    /// ```
    /// # fn main() -> tpmsim::Result<()> {
    /// let (one, other) = (tpmsim::Device::from_seed(b"mine")?, tpmsim::Device::from_seed(b"mine")?);
    /// assert_eq!(one.save(), other.save());
    /// # Ok(())
    /// # }
    /// ```
    pub fn from_seed(seed: &[u8]) -> Result<Device> {
        Device::manufactured(Some(seed), Source::of_seed(seed))
    }

    /// Opens the device from an image, in the state after a power cycle.
    ///
    /// # Errors
    ///
    /// [`Error::Image`] if the bytes are not an image, [`Error::Memory`], [`Error::Random`].
    ///
    /// ```
    /// use tpmsim::{Device, Error, Fault};
    ///
    /// # fn main() -> tpmsim::Result<()> {
    /// let image = Device::new()?.save();
    /// assert_eq!(Device::open(&image)?.save(), image);
    /// let refused = Device::open(&image[1..]);
    /// assert!(matches!(refused, Err(Error::Image(Fault::Magic))));
    /// # Ok(())
    /// # }
    /// ```
    pub fn open(image: &[u8]) -> Result<Device> {
        let mut device = Device::holding_none(Source::system().map_err(Error::Random)?);
        match device.native.open(image) {
            DONE => Ok(device),
            told => Err(Error::of(told, FIRST_IMAGE_FAULT, Error::Image)),
        }
    }

    /// Executes a command, whatever its bytes are.
    ///
    /// # Panics
    ///
    /// If the system provides no more random bytes, because the next command would draw the same
    /// bytes again.
    ///
    /// ```
    /// # fn main() -> tpmsim::Result<()> {
    /// let mut tpm = tpmsim::Device::new()?;
    /// tpm.start_up()?;
    /// let response = tpm.execute(&[0x80, 1, 0, 0, 0, 12, 0, 0, 1, 0x7b, 0, 4]); // GetRandom 4
    /// assert_eq!(response.accepted()?.len(), 2 + 4);
    /// # Ok(())
    /// # }
    /// ```
    pub fn execute(&mut self, buffer: &[u8]) -> Response {
        self.executed(Executor::Device, buffer)
    }

    /// Executes a command with the completing layer above the device. The layer answers commands on
    /// saved contexts, and other commands that the device, by design, does not support. The check
    /// of the response is still that of the device.
    ///
    /// # Panics
    ///
    /// Like [`Device::execute`].
    ///
    /// ```
    /// # fn main() -> tpmsim::Result<()> {
    /// let mut tpm = tpmsim::Device::new()?;
    /// tpm.start_up()?;
    /// let stir_random = [0x80, 1, 0, 0, 0, 13, 0, 0, 1, 0x46, 0, 1, 7];
    /// assert_eq!(tpm.execute(&stir_random).code().name(), Some("COMMAND_CODE"));
    /// assert_eq!(tpm.complete(&stir_random).code().name(), Some("SUCCESS"));
    /// # Ok(())
    /// # }
    /// ```
    pub fn complete(&mut self, buffer: &[u8]) -> Response {
        self.executed(Executor::Completed, buffer)
    }

    /// Executes TPM2_Startup(CLEAR).
    ///
    /// # Errors
    ///
    /// [`Error::Refused`] if the device is already started.
    pub fn start_up(&mut self) -> Result<()> {
        self.execute(&STARTUP).accepted()?;
        Ok(())
    }

    /// Returns the locality of the next commands, initially 0.
    pub fn locality(&self) -> u8 {
        self.locality
    }

    /// Sets the locality of the next commands, 0 to 4.
    ///
    /// # Errors
    ///
    /// [`Error::Locality`] for a higher number.
    pub fn set_locality(&mut self, locality: u8) -> Result<()> {
        self.locality = valid(locality)?;
        self.logged(|| format!("loc {locality}"));
        Ok(())
    }

    /// Lets time pass before the next command, in whole milliseconds. The call returns at once: it
    /// only advances the device's time.
    ///
    /// # Errors
    ///
    /// [`Error::Wait`] if more than 4,294,967,295 milliseconds would pass before a command.
    pub fn wait(&mut self, time: Duration) -> Result<()> {
        let milliseconds = u32::try_from(time.as_millis()).map_err(|_| Error::Wait)?;
        self.elapsed = self.elapsed.checked_add(milliseconds).ok_or(Error::Wait)?;
        self.logged(|| format!("wait {milliseconds}"));
        Ok(())
    }

    /// Power-cycles the device, which then expects TPM2_Startup.
    pub fn power_cycle(&mut self) {
        self.native.power_cycle();
        self.logged(|| "power".into());
    }

    /// Returns the image, which contains everything that the device keeps while it has no power.
    /// [`Device::open`] opens it.
    pub fn save(&self) -> Vec<u8> {
        self.native.image()
    }

    /// Returns the state text: the whole state, with sessions, objects, PCRs and times. It contains
    /// all secrets in plain text. It does not contain the locality, nor the time that has elapsed
    /// since the last command.
    pub fn snapshot(&self) -> Vec<u8> {
        self.native.state_text()
    }

    /// Replaces the state with that in a state text, which may come from any device in any process.
    /// The log restarts.
    ///
    /// # Errors
    ///
    /// [`Error::State`] if the bytes are not a state text, and [`Error::Memory`]. In both cases the
    /// device is unchanged.
    ///
    /// ```
    /// # fn main() -> tpmsim::Result<()> {
    /// let mut tpm = tpmsim::Device::new()?;
    /// let before = tpm.snapshot();
    /// tpm.start_up()?;
    /// assert!(tpm.start_up().is_err()); // it is already started
    /// tpm.restore(&before)?;
    /// tpm.start_up()?; // in the restored state it is not started
    /// # Ok(())
    /// # }
    /// ```
    pub fn restore(&mut self, text: &[u8]) -> Result<()> {
        match self.native.restore(text) {
            DONE => {
                self.elapsed = 0;
                if self.log.is_some() {
                    self.begin_log();
                }
                Ok(())
            }
            told => Err(Error::of(told, FIRST_STATE_FAULT, Error::State)),
        }
    }

    /// Starts a log from the current state of the device. Without this call, there is no log.
    pub fn begin_log(&mut self) {
        let mut log = Log::of_state(&self.native.state_text());
        if self.locality > 0 {
            log.line(&format!("loc {}", self.locality));
        }
        if self.elapsed > 0 {
            log.line(&format!("wait {}", self.elapsed));
        }
        self.log = Some(log);
    }

    /// Returns the log, a script with the responses as comments. `tpmsim-explain FILE` reports why
    /// each command in it was refused. The log is empty without [`Device::begin_log`]. It contains
    /// all secrets.
    pub fn log(&self) -> &str {
        self.log.as_ref().map_or("", Log::text)
    }

    /// Returns a `Device` whose handle contains no device yet.
    fn holding_none(source: Source) -> Device {
        Device { native: Native::empty(), source, locality: 0, elapsed: 0, log: None }
    }

    /// Makes a new device.
    fn manufactured(seed: Option<&[u8]>, source: Source) -> Result<Device> {
        let random = random::of_new_device(seed).map_err(Error::Random)?;
        let mut device = Device::holding_none(source);
        match device.native.manufacture(&random) {
            DONE => Ok(device),
            _ => Err(Error::Memory),
        }
    }

    /// Executes a command, and replaces the random bytes that it drew.
    fn executed(&mut self, by: Executor, buffer: &[u8]) -> Response {
        let random = self.source.next();
        let told = Circumstances { locality: self.locality, elapsed: self.elapsed, random };
        let executed = self.native.execute(by, buffer, &told);
        let outcome = executed.expect("there is a device, and its locality is one");
        self.elapsed = 0;
        let drawn = outcome.drawn;
        if let Some(log) = &mut self.log {
            log.command(by, buffer, &self.source.bytes()[..drawn], &outcome.response);
        }
        if let Err(fault) = self.source.renew(drawn) {
            panic!("the system has no random bytes: {fault}");
        }
        Response::of(outcome, buffer)
    }

    /// Adds a line to the log, if there is one.
    fn logged(&mut self, line: impl FnOnce() -> String) {
        if let Some(log) = &mut self.log {
            log.line(&line());
        }
    }
}

/// Returns a locality if it is 0 to 4.
pub(crate) fn valid(locality: u8) -> Result<u8> {
    match locality {
        0..=LAST_LOCALITY => Ok(locality),
        _ => Err(Error::Locality(locality)),
    }
}

impl fmt::Debug for Device {
    /// Writes no secrets.
    fn fmt(&self, out: &mut fmt::Formatter<'_>) -> fmt::Result {
        let Device { locality, elapsed, .. } = self;
        out.debug_struct("Device")
            .field("locality", locality)
            .field("elapsed", elapsed)
            .finish_non_exhaustive()
    }
}
