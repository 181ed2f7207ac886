//! The shortest example: draws random bytes from a new device.

use tpmsim::Device;

fn main() -> tpmsim::Result<()> {
    let mut tpm = Device::new()?;
    tpm.start_up()?;
    let response = tpm.execute(&[0x80, 1, 0, 0, 0, 12, 0, 0, 1, 0x7b, 0, 4]); // GetRandom 4
    println!("{:02x?}", &response.accepted()?[2..]);
    Ok(())
}
