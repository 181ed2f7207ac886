//! A caller in Rust. A device is freed when it goes out of scope, and may move between threads.
use std::ptr::null_mut;

#[repr(C)]
struct Device(*mut u8);

#[repr(C)]
#[derive(Default)]
struct Answered {
    size: usize,
    drawn: usize,
    code: u32,
    check: u8,
}

#[link(name = "tpmsim", kind = "static")]
extern "C" {
    fn tpmsim_manufacture(device: &mut Device, random: &[u8; 256]) -> u8;
    fn tpmsim_execute(
        device: &mut Device,
        buffer: *const u8,
        size: usize,
        locality: u8,
        elapsed_ms: u32,
        random: &[u8; 256],
        response: &mut [u8; 4096],
        answered: &mut Answered,
    ) -> u8;
    fn tpmsim_free(device: &mut Device);
}

unsafe impl Send for Device {}

impl Drop for Device {
    fn drop(&mut self) {
        unsafe { tpmsim_free(self) }
    }
}

impl Device {
    fn execute(&mut self, buffer: &[u8], random: &[u8; 256]) -> (Vec<u8>, Answered) {
        let (mut out, mut told) = ([0; 4096], Answered::default());
        let (at, size) = (buffer.as_ptr(), buffer.len());
        unsafe { tpmsim_execute(self, at, size, 0, 0, random, &mut out, &mut told) };
        (out[..told.size].to_vec(), told)
    }
}

fn main() {
    let random = std::array::from_fn(|i| i as u8);
    let mut device = Device(null_mut());
    assert_eq!(unsafe { tpmsim_manufacture(&mut device, &random) }, 0);
    device.execute(&[0x80, 1, 0, 0, 0, 12, 0, 0, 1, 0x44, 0, 0], &random);
    let get = [0x80, 1, 0, 0, 0, 12, 0, 0, 1, 0x7b, 0, 4];
    let thread = std::thread::spawn(move || device.execute(&get, &random));
    let (response, told) = thread.join().unwrap();
    println!("{response:02x?}");
    let Answered {
        code, check, drawn, ..
    } = told;
    println!("row {code:08x} {check}, {drawn} bytes drawn");
}
