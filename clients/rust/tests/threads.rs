//! Runs a thousand tests, each with its own device, on all processors of the machine.

use std::sync::atomic::{AtomicUsize, Ordering};
use std::thread;
use std::time::{Duration, Instant};
use tpmsim::Device;

const DEVICES: usize = 1000;

/// Extends PCR 7 in the SHA-256 bank with a number as the digest, then reads that PCR.
fn test(number: usize) -> Vec<u8> {
    let mut device = Device::new().expect("there is memory");
    device.start_up().expect("it was not started");
    let mut extend = vec![0x80, 2, 0, 0, 0, 65, 0, 0, 1, 0x82, 0, 0, 0, 7];
    extend.extend([0, 0, 0, 9, 0x40, 0, 0, 9, 0, 0, 0, 0, 0, 0, 0, 0, 1, 0, 0x0b]);
    extend.extend([0; 24]);
    extend.extend(number.to_be_bytes());
    device.execute(&extend).accepted().expect("PCR 7 may be extended");
    let read = [0x80, 1, 0, 0, 0, 20, 0, 0, 1, 0x7e, 0, 0, 0, 1, 0, 0x0b, 3, 0x80, 0, 0];
    device.execute(&read).accepted().expect("PCR 7 may be read")[4..].to_vec()
}

/// Measures the time for a round of all tests, on all processors of the machine.
fn a_round() -> Duration {
    let began = Instant::now();
    let next = AtomicUsize::new(0);
    let take = || {
        let mut read = Vec::new();
        loop {
            match next.fetch_add(1, Ordering::Relaxed) {
                number if number < DEVICES => read.push(test(number)),
                _ => return read,
            }
        }
    };
    let threads = thread::available_parallelism().map_or(4, usize::from);
    let mut read: Vec<_> = thread::scope(|scope| {
        let all: Vec<_> = (0..threads).map(|_| scope.spawn(take)).collect();
        all.into_iter().flat_map(|it| it.join().expect("each device is its own")).collect()
    });
    let took = began.elapsed();
    read.sort();
    read.dedup();
    assert_eq!(read.len(), DEVICES);
    took
}

/// Other processes on the machine may slow down a round. Therefore only the fastest of ten rounds
/// counts.
#[test]
fn a_thousand_devices_take_less_than_half_a_second() {
    let is_quick = (0..10).any(|_| a_round() < Duration::from_millis(500));
    assert!(is_quick, "each round took longer");
}

#[test]
fn a_device_goes_from_thread_to_thread() {
    let mut device = Device::new().expect("there is memory");
    for started in [false, true, true] {
        let moved = thread::spawn(move || {
            assert_eq!(device.start_up().is_err(), started);
            device
        });
        device = moved.join().expect("it goes back");
    }
}
