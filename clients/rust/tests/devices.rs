//! Tests the package's devices through its public interface.

use std::io::{Read, Write};
use std::time::Duration;
use tpmsim::{Check, Device, DeviceFile, Error, Fault, ResponseCode, Transport};

/// Returns a command without sessions. `rest` contains the bytes after the header.
fn command(code: u32, rest: &[u8]) -> Vec<u8> {
    let size = u32::try_from(10 + rest.len()).expect("a command is short");
    [&[0x80, 1], &size.to_be_bytes()[..], &code.to_be_bytes(), rest].concat()
}

fn get_random(count: u16) -> Vec<u8> {
    command(0x17b, &count.to_be_bytes())
}

/// Returns TPM2_StartAuthSession for a SHA-256 HMAC session, neither bound nor salted.
fn start_auth_session() -> Vec<u8> {
    let nonce = [[0, 16].to_vec(), vec![1; 16]].concat();
    let rest = [vec![0x40, 0, 0, 7, 0x40, 0, 0, 7], nonce, vec![0, 0, 0, 0, 0x10, 0, 0x0b]];
    command(0x176, &rest.concat())
}

fn started() -> Device {
    let mut device = Device::new().expect("there is memory");
    device.start_up().expect("it was not started");
    device
}

fn drawn(device: &mut Device, count: u16) -> Vec<u8> {
    device.execute(&get_random(count)).accepted().expect("it is started")[2..].to_vec()
}

/// Returns the milliseconds since power-on.
fn time(device: &mut Device) -> u64 {
    let response = device.execute(&command(0x181, &[]));
    let time = response.accepted().expect("it is started")[..8].try_into();
    u64::from_be_bytes(time.expect("there are eight bytes"))
}

#[test]
fn draws_fresh_bytes_each_time() {
    let mut device = started();
    let draws: std::collections::HashSet<_> = (0..100).map(|_| drawn(&mut device, 16)).collect();
    assert_eq!(draws.len(), 100);
    assert_ne!(drawn(&mut started(), 16), drawn(&mut started(), 16));
}

#[test]
fn draws_the_same_of_a_seed() {
    let [one, other, third] = [&b"mine"[..], b"mine", b"other"].map(|seed| {
        let mut device = Device::from_seed(seed).expect("there is memory");
        device.start_up().expect("it was not started");
        (device.save(), drawn(&mut device, 16), drawn(&mut device, 16))
    });
    assert_eq!(one, other);
    assert_ne!(one, third);
    assert_ne!(one.1, one.2);
}

#[test]
fn tells_who_refused() {
    let mut device = started();
    let response = device.execute(&get_random(4)[..11]);
    assert_eq!(
        (response.code().name(), response.check()),
        (Some("COMMAND_SIZE"), Check::General(3))
    );
    let refusal = device.execute(&command(0x17e, &[0; 3])).accepted().unwrap_err();
    assert_eq!(refusal.to_string(), "PCR_Read: INSUFFICIENT/p1 (1DA), by G11");
    let unknown = device.execute(&command(0x0bad, &[])).accepted().unwrap_err();
    assert_eq!(
        unknown.to_string(),
        "unknown command (BAD): tpmsim has no such command: COMMAND_CODE (143), by G4"
    );
    let turned = device.execute(&command(0x7b010000, &[])).accepted().unwrap_err();
    assert_eq!(
        turned.to_string(),
        "unknown command (7B010000): its bytes in the other order are GetRandom: COMMAND_CODE (143), by G4"
    );
    let decrypt = device.execute(&command(0x159, &[])).accepted().unwrap_err();
    assert_eq!(
        decrypt.to_string(),
        "RSA_Decrypt (159): tpmsim has no such command: COMMAND_CODE (143), by G4"
    );
    assert_eq!(device.execute(&get_random(4)).code(), ResponseCode::SUCCESS);
}

#[test]
fn has_the_time_that_is_told() {
    let mut device = started();
    device.wait(Duration::from_secs(3600)).expect("it is short");
    device.wait(Duration::from_millis(1)).expect("it is short");
    assert_eq!(time(&mut device), 3_600_001);
    assert_eq!(time(&mut device), 3_600_001);
    device.power_cycle();
    device.start_up().expect("it was not started");
    assert_eq!(time(&mut device), 0);
    let most = Duration::from_millis(u64::from(u32::MAX));
    device.wait(most).expect("it is not more");
    assert!(matches!(device.wait(Duration::from_millis(1)), Err(Error::Wait)));
    assert_eq!(time(&mut device), u64::from(u32::MAX));
}

#[test]
fn has_the_locality_that_is_told() {
    let mut device = started();
    let reset_20 = [
        &[0x80, 2, 0, 0, 0, 27, 0, 0, 1, 0x3d][..],
        &[0, 0, 0, 20, 0, 0, 0, 9, 0x40, 0, 0, 9, 0, 0, 0, 0, 0],
    ]
    .concat();
    assert_eq!(device.execute(&reset_20).code().name(), Some("LOCALITY"));
    assert!(matches!(device.set_locality(5), Err(Error::Locality(5))));
    assert_eq!(device.locality(), 0);
    device.set_locality(4).expect("it is one");
    assert_eq!(device.execute(&reset_20).code(), ResponseCode::SUCCESS);
}

#[test]
fn a_state_text_has_sessions_and_an_image_has_none() {
    let mut device = started();
    device.execute(&start_auth_session()).accepted().expect("there is room");
    let flush = command(0x165, &[2, 0, 0, 0]);
    let mut other = Device::new().expect("there is memory");
    other.restore(&device.snapshot()).expect("it is a state text");
    assert_eq!(other.snapshot(), device.snapshot());
    other.execute(&flush).accepted().expect("the session is there");
    let mut opened = Device::open(&device.save()).expect("it is an image");
    opened.start_up().expect("its power was cycled");
    assert_eq!(opened.execute(&flush).code().name(), Some("HANDLE"));
}

#[test]
fn bytes_that_are_no_text_change_nothing() {
    let mut device = started();
    let before = device.snapshot();
    let mut turned = before.clone();
    turned[60] ^= 1;
    let faults = [&[][..], &device.save(), &before[..before.len() - 1], &turned].map(|text| {
        match device.restore(text) {
            Err(Error::State(fault)) => fault,
            other => panic!("{other:?}"),
        }
    });
    assert_eq!(faults, [Fault::Short, Fault::Magic, Fault::Length, Fault::Digest]);
    assert_eq!(device.snapshot(), before);
}

#[test]
fn is_a_transport_and_a_file() {
    fn through(tpm: &mut impl Transport<Error = Error>) -> usize {
        tpm.transmit(&get_random(8)).expect("each command has a response").len()
    }
    let mut device = started();
    assert_eq!(through(&mut device), 20);
    let mut file = DeviceFile::new(device);
    file.write_all(&get_random(8)).expect("each buffer is taken");
    let mut response = Vec::new();
    file.read_to_end(&mut response).expect("the response is there");
    assert_eq!(response.len(), 20);
    assert_eq!(file.read(&mut [0; 8]).expect("there is nothing"), 0);
    file.device().power_cycle();
    file.write_all(&get_random(8)).expect("each buffer is taken");
    assert_eq!(file.read(&mut [0; 32]).expect("the refusal is there"), 10);
}

#[test]
fn a_log_begins_where_it_is_asked_for() {
    let mut device = started();
    assert_eq!(device.log(), "");
    device.set_locality(1).expect("it is one");
    device.wait(Duration::from_millis(7)).expect("it is short");
    device.begin_log();
    device.execute(&get_random(1));
    device.power_cycle();
    let words: Vec<_> = device.log().lines().map(|it| it.split(' ').next().unwrap_or("")).collect();
    assert_eq!(words, ["#", "loc", "wait", "entropy", "cmd", "#", "power"]);
    let text = device.snapshot();
    device.restore(&text).expect("it is a state text");
    assert_eq!(device.log().lines().count(), 2);
}

#[test]
fn shows_no_secret() {
    let device = Device::new().expect("there is memory");
    assert_eq!(format!("{device:?}"), "Device { locality: 0, elapsed: 0, .. }");
}

#[test]
fn debug_prints_names_and_hex() {
    let mut device = Device::new().expect("there is memory");
    let response = device.execute(&get_random(4));
    let refusal = response.accepted().unwrap_err();
    assert_eq!(format!("{refusal:?}"), "GetRandom: INITIALIZE (100), by G5");
    assert_eq!(
        format!("{:?}", Error::from(refusal)),
        "Refused(GetRandom: INITIALIZE (100), by G5)"
    );
    assert_eq!(format!("{:?} {:?}", response.code(), response.check()), "INITIALIZE (100) G5");
    assert_eq!(
        format!("{response:?}"),
        "Response { bytes: 80010000000a00000100, command: GetRandom, code: INITIALIZE (100), check: G5 }"
    );
}
