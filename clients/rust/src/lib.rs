//! A TPM 2.0 in your process, for tests.
//!
//! ```
//! use tpmsim::Device;
//!
//! # fn main() -> tpmsim::Result<()> {
//! let mut tpm = Device::new()?;
//! tpm.start_up()?;
//! let response = tpm.execute(&[0x80, 1, 0, 0, 0, 12, 0, 0, 1, 0x7b, 0, 4]); // GetRandom 4
//! println!("{:02x?}", &response.accepted()?[2..]);
//! # Ok(())
//! # }
//! ```
//!
//! A [`Device`] is implemented by libtpmsim, which is linked statically, and proved to respond as
//! its specification requires. Each test has its own device: devices share no file, lock or
//! variable, so tests can run in parallel. [`Transport`] and [`DeviceFile`] are the interfaces that
//! TPM libraries expect.
//!
//! The error for a refused command describes in words what was refused. `tpmsim-explain` reads
//! [`Device::log`], and explains the whole reason:
//!
//! ```
//! # fn main() -> tpmsim::Result<()> {
//! let mut tpm = tpmsim::Device::new()?;
//! tpm.begin_log();
//! if let Err(refusal) = tpm.start_up().and_then(|()| tpm.start_up()) {
//!     assert_eq!(refusal.to_string(), "Startup: INITIALIZE (100), by G5");
//! }
//! assert_eq!(tpm.log().matches("\ncmd 80010000000c000001440000\n").count(), 2);
//! # Ok(())
//! # }
//! ```
//!
//! If `TPMSIM_LIB_DIR` is set, the library in that folder is linked. Otherwise the library in this
//! package or in its repository is linked, which is for Linux on x86-64 and on ARM64.
#![deny(missing_docs, unsafe_op_in_unsafe_fn, unsafe_code)]

mod code;
mod device;
mod error;
mod kept;
mod log;
mod names;
mod native;
mod random;
mod response;
mod shake;
mod transport;

pub use code::{Check, Place, ResponseCode};
pub use device::Device;
pub use error::{Error, Fault, Result};
pub use kept::KeptDevice;
pub use response::{Refusal, Response};
pub use transport::{DeviceFile, Transport};

/// The version of the linked library, such as `0.1.0`.
///
/// ```
/// assert_eq!(tpmsim::version(), env!("CARGO_PKG_VERSION"));
/// ```
pub fn version() -> String {
    let [_, first, second, third] = native::version().to_be_bytes();
    format!("{first}.{second}.{third}")
}
