//! The calls of libtpmsim-kept, which is loaded when the first device is opened.
//!
//! A [`NativeKept`] is the only owner of its handle, and each buffer has the size that its call
//! reads or writes.

use super::{Answered, Outcome, DONE, RESPONSE_BYTES, TEXT_BYTES};
use std::ffi::{CStr, CString, OsString};
use std::os::raw::{c_char, c_int, c_void};
use std::os::unix::ffi::{OsStrExt, OsStringExt};
use std::path::Path;
use std::ptr::{null, null_mut};

/// The file name of the library.
const LIBRARY: &str = "libtpmsim-kept.so.0";

/// The size of a buffer that is large enough for every reason.
const REASON_BYTES: usize = 4608;

/// `RTLD_NOW`, and `TPMSIM_FORCE_POWER` of the header.
const NOW: c_int = 2;
const FORCE_POWER: u8 = 1;

/// The type `tpmsim_kept_device` of the header.
#[repr(C)]
struct Holder(*mut c_void);

/// The type `tpmsim_kept_options` of the header.
#[repr(C)]
struct Options {
    folder: *const c_char,
    image: *const c_char,
    random: *const u8,
    random_size: u32,
    keep: u32,
    force: u8,
    is_there: u8,
    cuts: u8,
}

type Reason = *mut c_char;
type Open = unsafe extern "C" fn(*mut Holder, *const Options, Reason) -> u8;
type Execute = unsafe extern "C" fn(
    *mut Holder,
    *const u8,
    usize,
    u8,
    u8,
    *mut u8,
    *mut Answered,
    Reason,
) -> u8;
type Power = unsafe extern "C" fn(*mut Holder, Reason) -> u8;
type Snapshot = unsafe extern "C" fn(*mut Holder, *mut u8, *mut usize, Reason) -> u8;
type Restore = unsafe extern "C" fn(*mut Holder, *const u8, usize, Reason) -> u8;
type Close = unsafe extern "C" fn(*mut Holder);

extern "C" {
    fn dlopen(path: *const c_char, flags: c_int) -> *mut c_void;
    fn dlsym(library: *mut c_void, name: *const c_char) -> *mut c_void;
    fn dlerror() -> *const c_char;
}

/// The library's functions. The library is never unloaded.
#[derive(Clone, Copy)]
struct Calls {
    open: Open,
    execute: Execute,
    power: Power,
    snapshot: Snapshot,
    restore: Restore,
    close: Close,
}

/// Returns the loader's last message.
fn loader_message() -> String {
    // SAFETY: the call returns null, or a text that ends with a 0 and lives until the next call.
    let text = unsafe { dlerror() };
    if text.is_null() {
        return "the loader gives no reason".into();
    }
    // SAFETY: see above.
    unsafe { CStr::from_ptr(text) }.to_string_lossy().into_owned()
}

/// Loads a library, by its path or by its name.
fn load(path: &Path) -> Result<*mut c_void, String> {
    let path = CString::new(path.as_os_str().as_bytes()).map_err(|_| "a path has no 0")?;
    // SAFETY: `path` ends with a 0.
    let library = unsafe { dlopen(path.as_ptr(), NOW) };
    if library.is_null() {
        return Err(loader_message());
    }
    Ok(library)
}

/// Returns the address of a function of the library.
fn symbol(library: *mut c_void, name: &str) -> Result<*mut c_void, String> {
    let name = CString::new(name).map_err(|_| "a name has no 0")?;
    // SAFETY: `library` was loaded, and `name` ends with a 0.
    let address = unsafe { dlsym(library, name.as_ptr()) };
    if address.is_null() {
        return Err(loader_message());
    }
    Ok(address)
}

impl Calls {
    /// Loads the library next to the linked libtpmsim or, if there is none, where the loader looks.
    fn load() -> Result<Calls, String> {
        let near = option_env!("TPMSIM_NATIVE").map(|folder| Path::new(folder).join(LIBRARY));
        let library = load(match &near {
            Some(path) if path.exists() => path,
            _ => Path::new(LIBRARY),
        })?;
        let call = |name: &str| symbol(library, &format!("tpmsim_kept_{name}"));
        // SAFETY: the functions have the types that tpmsim_kept.h declares.
        unsafe {
            Ok(Calls {
                open: std::mem::transmute::<*mut c_void, Open>(call("open")?),
                execute: std::mem::transmute::<*mut c_void, Execute>(call("execute")?),
                power: std::mem::transmute::<*mut c_void, Power>(call("power")?),
                snapshot: std::mem::transmute::<*mut c_void, Snapshot>(call("snapshot")?),
                restore: std::mem::transmute::<*mut c_void, Restore>(call("restore")?),
                close: std::mem::transmute::<*mut c_void, Close>(call("close")?),
            })
        }
    }
}

/// A handle of the library, with a device.
pub(crate) struct NativeKept {
    holder: Holder,
    calls: Calls,
}

// SAFETY: the library has no thread-local state, and a device is reachable only through its handle,
// which moves with the `NativeKept`.
unsafe impl Send for NativeKept {}

/// Makes a call that can fail, and returns its reason if it fails.
fn told(call: impl FnOnce(Reason) -> u8) -> Result<(), String> {
    let mut reason = vec![0u8; REASON_BYTES];
    match call(reason.as_mut_ptr().cast()) {
        DONE => Ok(()),
        _ => {
            reason.truncate(reason.iter().position(|byte| *byte == 0).unwrap_or(0));
            Err(OsString::from_vec(reason).to_string_lossy().into_owned())
        }
    }
}

impl NativeKept {
    /// Opens the device in a folder, or makes one there.
    pub(crate) fn open(folder: &Path) -> Result<NativeKept, String> {
        let path = CString::new(folder.as_os_str().as_bytes()).map_err(|_| "a path has no 0")?;
        let mut kept = NativeKept { holder: Holder(null_mut()), calls: Calls::load()? };
        let options = Options {
            folder: path.as_ptr(),
            image: null(),
            random: null(),
            random_size: 0,
            keep: 0,
            force: FORCE_POWER,
            is_there: 0,
            cuts: 0,
        };
        // SAFETY: the handle is empty, `options` lives during the call, and the reason has its size.
        told(|reason| unsafe { (kept.calls.open)(&mut kept.holder, &options, reason) })?;
        Ok(kept)
    }

    /// Executes a command.
    pub(crate) fn execute(
        &mut self,
        buffer: &[u8],
        locality: u8,
        completes: bool,
    ) -> Result<Outcome, String> {
        let mut room = [0; RESPONSE_BYTES];
        let mut answered = Answered::default();
        // SAFETY: the handle is valid, `buffer` has the passed size, and `room` 4,096 bytes.
        told(|reason| unsafe {
            (self.calls.execute)(
                &mut self.holder,
                buffer.as_ptr(),
                buffer.len(),
                locality,
                u8::from(completes),
                room.as_mut_ptr(),
                &mut answered,
                reason,
            )
        })?;
        Ok(Outcome {
            response: room[..answered.size].to_vec(),
            drawn: answered.drawn,
            code: answered.code,
            check: answered.check,
        })
    }

    /// Power-cycles the device.
    pub(crate) fn power_cycle(&mut self) -> Result<(), String> {
        // SAFETY: the handle is valid.
        told(|reason| unsafe { (self.calls.power)(&mut self.holder, reason) })
    }

    /// Returns the state text.
    pub(crate) fn state_text(&mut self) -> Result<Vec<u8>, String> {
        let (mut room, mut size) = (vec![0; TEXT_BYTES], 0);
        // SAFETY: the handle is valid, and `room` is large enough for every state text.
        told(|reason| unsafe {
            (self.calls.snapshot)(&mut self.holder, room.as_mut_ptr(), &mut size, reason)
        })?;
        room.truncate(size);
        Ok(room)
    }

    /// Replaces the device with the one in a state text.
    pub(crate) fn restore(&mut self, text: &[u8]) -> Result<(), String> {
        // SAFETY: the handle is valid, and `text` has the passed size.
        told(|reason| unsafe {
            (self.calls.restore)(&mut self.holder, text.as_ptr(), text.len(), reason)
        })
    }
}

impl Drop for NativeKept {
    fn drop(&mut self) {
        // SAFETY: the handle is valid, and this is its last call.
        unsafe { (self.calls.close)(&mut self.holder) }
    }
}
