//! Each test has its own device, and the tests run in parallel.

use tpmsim::Device;
use vault::random_bytes;

fn started() -> Device {
    let mut tpm = Device::new().expect("there is memory");
    tpm.start_up().expect("it was not started");
    tpm
}

#[test]
fn a_device_draws_new_bytes() {
    let mut tpm = started();
    let mut send = |command: &[u8]| tpm.execute(command).into_bytes();
    let first = random_bytes(&mut send, 16).expect("it is started");
    let second = random_bytes(&mut send, 16).expect("it is started");
    assert_eq!((first.len(), second.len()), (16, 16));
    assert_ne!(first, second);
}

#[test]
fn a_device_that_is_not_started_refuses() {
    let mut tpm = Device::new().expect("there is memory");
    let mut send = |command: &[u8]| tpm.execute(command).into_bytes();
    assert_eq!(random_bytes(&mut send, 16), Err(0x100));
}

#[test]
fn a_seed_makes_a_test_repeatable() {
    let drawn = || {
        let mut tpm = Device::from_seed(b"mine").expect("there is memory");
        tpm.start_up().expect("it was not started");
        random_bytes(&mut |command| tpm.execute(command).into_bytes(), 16)
    };
    assert_eq!(drawn(), drawn());
}
