//! Wrong PINs are counted. After three of them the TPM checks no more PINs until an hour of device
//! time has passed, or until the lockout is reset with lockoutAuth.

mod commands;

use commands::{define, number, send, sized, tell, By, INDEX, LOCKOUT};
use std::time::Duration;
use tpmsim::{Device, Refusal};

/// The attributes of an index that is written and read with its own authorization value.
const BY_VALUE: u32 = 0x0004_0004;

const PIN: &[u8] = b"7391";
const WRONG: &[u8] = b"1234";
const HOUR: u32 = 3_600;

/// Reads the index with a PIN. Returns the data, or the reason for the refusal.
fn read(tpm: &mut Device, pin: &[u8]) -> Result<String, Refusal> {
    let by = Some(By::Password(pin));
    let data = send(tpm, 0x14e, &[INDEX, INDEX], by, &[0, 8, 0, 0])?.buffers(1).remove(0);
    Ok(String::from_utf8_lossy(&data).into_owned())
}

fn main() -> tpmsim::Result<()> {
    let tpm = &mut Device::new()?;
    tpm.start_up()?;
    let protection = [number(3), number(HOUR), number(24 * HOUR)].concat();
    send(tpm, 0x13a, &[LOCKOUT], Some(By::Password(b"")), &protection)?;
    define(tpm, BY_VALUE, PIN)?;
    let written = [sized(b"the data"), vec![0, 0]].concat();
    send(tpm, 0x137, &[INDEX, INDEX], Some(By::Password(PIN)), &written)?;
    tell("The right PIN", read(tpm, PIN));
    for _ in 0..3 {
        tell("A wrong one", read(tpm, WRONG));
    }
    tell("The right PIN", read(tpm, PIN));

    tpm.wait(Duration::from_secs(HOUR.into()))?;
    tell("An hour later", read(tpm, PIN));
    tell("A wrong one", read(tpm, WRONG));
    tell("The right PIN", read(tpm, PIN));
    send(tpm, 0x139, &[LOCKOUT], Some(By::Password(b"")), &[])?;
    tell("After a reset", read(tpm, PIN));
    Ok(())
}
