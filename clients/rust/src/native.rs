//! The calls of libtpmsim, libtpmsim-kept and `getrandom`. This is the only unsafe code of the
//! package.
//!
//! These types ensure the library's preconditions. A [`Native`] is the only owner of its handle,
//! which moves with it and is never copied. Calls that change the device take `&mut self`, and a
//! `Native` is not `Sync`, so only one call at a time uses a handle. Each buffer has the size that
//! its call reads or writes.
#![allow(unsafe_code)]

use std::io;
use std::os::raw::{c_uint, c_void};
use std::ptr::null_mut;

mod kept;
pub(crate) use kept::NativeKept;

/// The return code of a call that succeeded.
pub(crate) const DONE: u8 = 0;

/// The number of random bytes that the library expects in a call.
pub(crate) const RANDOM_BYTES: usize = 256;

/// The size of the longest response.
const RESPONSE_BYTES: usize = 4096;

/// The size of a buffer that is large enough for every image and every state text.
const TEXT_BYTES: usize = 36_930;

/// The type `tpmsim` of the header. It is not `Sync`, because a pointer is not.
#[repr(C)]
struct Holder(*mut c_void);

/// The type `tpmsim_answered` of the header.
#[repr(C)]
#[derive(Clone, Copy, Default)]
struct Answered {
    size: usize,
    drawn: usize,
    code: u32,
    check: u8,
}

type Execute = unsafe extern "C" fn(
    *mut Holder,
    *const u8,
    usize,
    u8,
    u32,
    *const u8,
    *mut u8,
    *mut Answered,
) -> u8;

type Write = unsafe extern "C" fn(*mut Holder, *mut u8, usize) -> usize;

type Read = unsafe extern "C" fn(*mut Holder, *const u8, usize) -> u8;

extern "C" {
    fn tpmsim_version() -> u32;
    fn tpmsim_manufacture(device: *mut Holder, random: *const u8) -> u8;
    fn tpmsim_execute(
        device: *mut Holder,
        buffer: *const u8,
        size: usize,
        locality: u8,
        elapsed_ms: u32,
        random: *const u8,
        response: *mut u8,
        answered: *mut Answered,
    ) -> u8;
    fn tpmsim_complete(
        device: *mut Holder,
        buffer: *const u8,
        size: usize,
        locality: u8,
        elapsed_ms: u32,
        random: *const u8,
        response: *mut u8,
        answered: *mut Answered,
    ) -> u8;
    fn tpmsim_power_cycle(device: *mut Holder) -> u8;
    fn tpmsim_save(device: *mut Holder, buffer: *mut u8, size: usize) -> usize;
    fn tpmsim_open(device: *mut Holder, image: *const u8, size: usize) -> u8;
    fn tpmsim_snapshot(device: *mut Holder, buffer: *mut u8, size: usize) -> usize;
    fn tpmsim_restore(device: *mut Holder, text: *const u8, size: usize) -> u8;
    fn tpmsim_free(device: *mut Holder);
    fn getrandom(buffer: *mut c_void, size: usize, flags: c_uint) -> isize;
}

/// What executes a command: only the device, or the completing layer above it.
#[derive(Clone, Copy)]
pub(crate) enum Executor {
    Device,
    Completed,
}

/// The inputs of a command in addition to its buffer.
pub(crate) struct Circumstances<'a> {
    pub locality: u8,
    pub elapsed: u32,
    pub random: &'a [u8; RANDOM_BYTES],
}

/// The result of a command.
pub(crate) struct Outcome {
    pub response: Vec<u8>,
    pub drawn: usize,
    pub code: u32,
    pub check: u8,
}

/// A handle of the library, with or without a device.
pub(crate) struct Native(Holder);

// SAFETY: the library has no global or thread-local state, and a device is reachable only through
// its handle, which moves with the `Native`.
unsafe impl Send for Native {}

impl Native {
    /// Returns a handle without a device.
    pub(crate) fn empty() -> Native {
        Native(Holder(null_mut()))
    }

    /// Makes a new device in this handle. Returns the library's return code.
    pub(crate) fn manufacture(&mut self, random: &[u8; RANDOM_BYTES]) -> u8 {
        // SAFETY: the handle is valid, and `random` points to 256 bytes.
        unsafe { tpmsim_manufacture(&mut self.0, random.as_ptr()) }
    }

    /// Executes a command. Returns `None` for a handle without a device, and for a locality above
    /// 4.
    pub(crate) fn execute(
        &mut self,
        by: Executor,
        buffer: &[u8],
        told: &Circumstances<'_>,
    ) -> Option<Outcome> {
        let call: Execute = match by {
            Executor::Device => tpmsim_execute,
            Executor::Completed => tpmsim_complete,
        };
        let mut room = [0; RESPONSE_BYTES];
        let mut answered = Answered::default();
        // SAFETY: the handle is valid; `buffer` has the passed size, `random` has 256
        // bytes and `room` 4,096; and none of these overlap.
        let done = unsafe {
            call(
                &mut self.0,
                buffer.as_ptr(),
                buffer.len(),
                told.locality,
                told.elapsed,
                told.random.as_ptr(),
                room.as_mut_ptr(),
                &mut answered,
            )
        };
        (done == DONE).then(|| Outcome {
            response: room[..answered.size].to_vec(),
            drawn: answered.drawn,
            code: answered.code,
            check: answered.check,
        })
    }

    /// Power-cycles the device.
    pub(crate) fn power_cycle(&mut self) {
        // SAFETY: the handle is valid.
        unsafe { tpmsim_power_cycle(&mut self.0) };
    }

    /// The image.
    pub(crate) fn image(&self) -> Vec<u8> {
        self.written(tpmsim_save)
    }

    /// The state text.
    pub(crate) fn state_text(&self) -> Vec<u8> {
        self.written(tpmsim_snapshot)
    }

    /// Opens the device from an image. Returns the library's return code.
    pub(crate) fn open(&mut self, image: &[u8]) -> u8 {
        self.read(tpmsim_open, image)
    }

    /// Restores a device from a state text. Returns the library's return code.
    pub(crate) fn restore(&mut self, text: &[u8]) -> u8 {
        self.read(tpmsim_restore, text)
    }

    /// Returns the text that a call writes. The call does not change the device.
    fn written(&self, call: Write) -> Vec<u8> {
        let mut room = vec![0; TEXT_BYTES];
        let holder = std::ptr::addr_of!(self.0) as *mut Holder;
        // SAFETY: the handle is valid, and the two calls of this type do not write to
        // it. No other thread uses it, because a `Native` is not `Sync`. `room` has the passed
        // size.
        let size = unsafe { call(holder, room.as_mut_ptr(), room.len()) };
        room.truncate(size);
        room
    }

    /// Makes a call that reads a text. Returns the library's return code.
    fn read(&mut self, call: Read, text: &[u8]) -> u8 {
        // SAFETY: the handle is valid, and `text` has the passed size.
        unsafe { call(&mut self.0, text.as_ptr(), text.len()) }
    }
}

impl Drop for Native {
    fn drop(&mut self) {
        // SAFETY: the handle is valid, and this is its last call.
        unsafe { tpmsim_free(&mut self.0) }
    }
}

/// Returns the version of the linked library: its three numbers, one byte each.
pub(crate) fn version() -> u32 {
    // SAFETY: the function has no arguments, and reads no memory.
    unsafe { tpmsim_version() }
}

/// Fills a buffer with the system's random bytes.
pub(crate) fn draw(mut buffer: &mut [u8]) -> io::Result<()> {
    while !buffer.is_empty() {
        // SAFETY: `buffer` has the passed size.
        let count = unsafe { getrandom(buffer.as_mut_ptr().cast(), buffer.len(), 0) };
        match usize::try_from(count) {
            Ok(count) => buffer = &mut buffer[count..],
            Err(_) => {
                let fault = io::Error::last_os_error();
                if fault.kind() != io::ErrorKind::Interrupted {
                    return Err(fault);
                }
            }
        }
    }
    Ok(())
}
