//! A caller in Rust that calls the C library, and logs what it executes:
//!
//!     explained LOG
//!
//! The completing layer answers two commands. The last command reads an index that nobody has
//! written.
use std::fs::File;
use std::io::{self, Write};
use std::ptr::null_mut;

/// Adds a command, which tpmsim_complete executed if `completes` is true: the random bytes that it drew, the
/// command, and its response.
fn log_command(
    log: &mut impl Write,
    completes: bool,
    buffer: &[u8],
    drawn: &[u8],
    response: &[u8],
) -> io::Result<()> {
    if completes {
        writeln!(log, "# completed")?;
    }
    let hex = |bytes: &[u8]| bytes.iter().map(|it| format!("{it:02x}")).collect::<String>();
    if !drawn.is_empty() {
        writeln!(log, "entropy {}", hex(drawn))?;
    }
    writeln!(log, "cmd {}\n# {}", hex(buffer), hex(response))
}

#[repr(C)]
#[derive(Default)]
struct Answered {
    size: usize,
    drawn: usize,
    code: u32,
    check: u8,
}

#[link(name = "tpmsim", kind = "static")]
extern "C" {
    fn tpmsim_manufacture(device: &mut *mut u8, random: &[u8; 256]) -> u8;
    fn tpmsim_execute(
        device: &mut *mut u8,
        buffer: *const u8,
        size: usize,
        locality: u8,
        elapsed_ms: u32,
        random: &[u8; 256],
        response: &mut [u8; 4096],
        answered: &mut Answered,
    ) -> u8;
    fn tpmsim_complete(
        device: &mut *mut u8,
        buffer: *const u8,
        size: usize,
        locality: u8,
        elapsed_ms: u32,
        random: &[u8; 256],
        response: &mut [u8; 4096],
        answered: &mut Answered,
    ) -> u8;
    fn tpmsim_save(device: &mut *mut u8, image: *mut u8, size: usize) -> usize;
    fn tpmsim_free(device: &mut *mut u8);
}

fn bytes(hex: &str) -> Vec<u8> {
    let digits: Vec<u8> = hex.bytes().filter(|it| *it != b' ').collect();
    let pair = |it: &[u8]| u8::from_str_radix(std::str::from_utf8(it).unwrap(), 16).unwrap();
    digits.chunks(2).map(pair).collect()
}

fn main() -> io::Result<()> {
    let mut log = File::create(std::env::args().nth(1).unwrap())?;
    let random = std::array::from_fn(|i| (i as u8).wrapping_add(1));
    let (mut device, mut image) = (null_mut(), vec![0; 28361]);
    assert_eq!(unsafe { tpmsim_manufacture(&mut device, &random) }, 0);
    let size = unsafe { tpmsim_save(&mut device, image.as_mut_ptr(), image.len()) };
    write!(log, "# image ")?;
    for byte in &image[..size] {
        write!(log, "{byte:02x}")?;
    }
    writeln!(log)?;
    for (completes, command) in [
        (false, "8001 0000000c 00000144 0000"),
        (true, "8001 0000000c 0000017b 0010"),
        (true, "8001 0000000d 00000146 0001 07"),
        (true, "8001 0000000e 00000186 0000 000b"),
        (false, "8001 0000000d 00000146 0001 07"),
        (
            false,
            "8002 0000002d 0000012a 40000001 00000009 40000009 0000 00 0000 0000 \
             000e 01000001 000b 00020002 0000 0008",
        ),
        (
            false,
            "8002 00000023 0000014e 40000001 01000001 00000009 40000009 0000 00 0000 0008 0000",
        ),
    ] {
        let call = if completes { tpmsim_complete } else { tpmsim_execute };
        let (buffer, mut response, mut told) = (bytes(command), [0; 4096], Answered::default());
        let (at, size) = (buffer.as_ptr(), buffer.len());
        unsafe { call(&mut device, at, size, 0, 0, &random, &mut response, &mut told) };
        let (drawn, answer) = (&random[..told.drawn], &response[..told.size]);
        log_command(&mut log, completes, &buffer, drawn, answer)?;
        println!("{:08x} by {}: {:02x}{:02x}", told.code, told.check, answer[8], answer[9]);
    }
    unsafe { tpmsim_free(&mut device) };
    Ok(())
}
