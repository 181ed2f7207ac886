//! A counter contains the lowest version that may be started. A key that is sealed for a version is
//! released as long as the counter does not exceed that version. The counter never decreases, even
//! if its index is deleted and defined again.

mod commands;

use commands::{
    define, digest_of, flush, sealed, send, sized, start_session, storage_key, tell, unseal, By,
    INDEX, OWNER, POLICY, TRIAL,
};
use tpmsim::{Device, Refusal};

/// The attributes of a counter that is written and read with its own authorization value or with
/// the owner's.
const COUNTER: u32 = 0x0006_0016;

const KEY: &[u8] = b"the key of this version.";

fn increment(tpm: &mut Device) -> Result<(), Refusal> {
    send(tpm, 0x134, &[INDEX, INDEX], Some(By::Password(b"")), &[]).map(|_| ())
}

fn lowest(tpm: &mut Device) -> Result<u64, Refusal> {
    let by = Some(By::Password(b""));
    let data = send(tpm, 0x14e, &[INDEX, INDEX], by, &[0, 8, 0, 0])?.buffers(1).remove(0);
    Ok(data.iter().fold(0, |sum, byte| sum << 8 | u64::from(*byte)))
}

/// Executes TPM2_PolicyNV: the counter is at most this version.
fn at_most(tpm: &mut Device, session: u32, version: u64) -> Result<(), Refusal> {
    let parameters = [sized(&version.to_be_bytes()), vec![0, 0, 0, 9]].concat();
    send(tpm, 0x149, &[INDEX, INDEX, session], Some(By::Password(b"")), &parameters).map(|_| ())
}

/// Returns the key that is sealed for a version, or the reason why its policy is not met. Returns an
/// error if another command is refused.
fn key_of(tpm: &mut Device, version: u64) -> Result<Result<String, Refusal>, Refusal> {
    let trial = start_session(tpm, TRIAL)?;
    at_most(tpm, trial, version)?;
    let policy = digest_of(tpm, trial)?;
    let parent = storage_key(tpm, b"")?;
    let handle = sealed(tpm, parent, b"", &policy, KEY)?;
    let session = start_session(tpm, POLICY)?;
    let key =
        at_most(tpm, session, version).and_then(|()| unseal(tpm, handle, By::Policy(session, b"")));
    for it in [session, handle, parent] {
        flush(tpm, it)?;
    }
    Ok(key)
}

fn main() -> tpmsim::Result<()> {
    let tpm = &mut Device::new()?;
    tpm.start_up()?;
    define(tpm, COUNTER, b"")?;
    increment(tpm)?;
    let first = lowest(tpm)?;
    tell("Version 1", key_of(tpm, first)?);
    increment(tpm)?;
    println!("The counter went up by {}", lowest(tpm)? - first);
    tell("Version 1", key_of(tpm, first)?);
    tell("Version 2", key_of(tpm, first + 1)?);

    tpm.power_cycle();
    tpm.start_up()?;
    tell("After a power cycle, version 1", key_of(tpm, first)?);
    send(tpm, 0x122, &[OWNER, INDEX], Some(By::Password(b"")), &[])?;
    define(tpm, COUNTER, b"")?;
    increment(tpm)?;
    println!("Defined anew it went up by {}", lowest(tpm)? - first);
    Ok(())
}
