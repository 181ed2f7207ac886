//! Tests devices in folders through the package's public interface.

use std::path::PathBuf;
use tpmsim::{Error, KeptDevice, Transport};

const GET_RANDOM: [u8; 12] = [0x80, 1, 0, 0, 0, 12, 0, 0, 1, 0x7b, 0, 4];
const STIR_RANDOM: [u8; 13] = [0x80, 1, 0, 0, 0, 13, 0, 0, 1, 0x46, 0, 1, 7];

/// A new folder, which is removed at the end of the test.
struct Folder(PathBuf);

impl Folder {
    fn new(name: &str) -> Folder {
        Folder(std::env::temp_dir().join(format!("tpmsim-rust-{}-{name}", std::process::id())))
    }

    fn open(&self) -> KeptDevice {
        KeptDevice::open(&self.0).expect("the folder may be made")
    }
}

impl Drop for Folder {
    fn drop(&mut self) {
        std::fs::remove_dir_all(&self.0).expect("the folder is there");
    }
}

#[test]
fn two_handles_use_one_device() {
    let folder = Folder::new("two");
    let mut one = folder.open();
    one.start_up().expect("it is new");
    let mut other = folder.open();
    assert_eq!(other.transmit(&GET_RANDOM).expect("it is kept").len(), 16);
    other.power_cycle().expect("it is kept");
    let refused = one.execute(&GET_RANDOM).expect("it is kept");
    assert_eq!(refused.accepted().unwrap_err().to_string(), "GetRandom: INITIALIZE (100), by G5");
}

#[test]
fn a_state_text_is_restored() {
    let folder = Folder::new("restore");
    let mut kept = folder.open();
    kept.start_up().expect("it is new");
    let before = kept.snapshot().expect("it is kept");
    kept.power_cycle().expect("it is kept");
    kept.restore(&before).expect("it is a state text");
    assert_eq!(kept.complete(&STIR_RANDOM).expect("it is kept").check().to_string(), "G4");
    assert!(kept.execute(&GET_RANDOM).expect("it is kept").accepted().is_ok());
    let reason = kept.restore(&before[1..]).unwrap_err().to_string();
    assert!(reason.contains("state text"), "{reason}");
    assert!(matches!(kept.set_locality(5), Err(Error::Locality(5))));
    kept.set_locality(4).expect("it is one");
}

#[test]
fn a_folder_that_cannot_be_made_is_named() {
    let reason = KeptDevice::open("/dev/null/folder").unwrap_err().to_string();
    assert!(reason.contains("/dev/null/folder"), "{reason}");
}
