//! A disk's key is sealed to PCRs 7 and 11 and a PIN. After PCR 11 has changed, the TPM no longer
//! releases it. The second branch of its policy, which requires the owner's passphrase, recovers
//! it.

mod commands;

use commands::{
    digest_of, flush, measure, sealed, selection, send, sized, start_session, storage_key, tell,
    unseal, By, OWNER, POLICY, TRIAL,
};
use tpmsim::{Device, Refusal};

const DISK_KEY: &[u8] = b"the key of a disk, of 32 bytes..";
const PIN: &[u8] = b"7391";
const PASSPHRASE: &[u8] = b"kept in a drawer";

/// Satisfies the first branch: the current values of the PCRs, and the PIN.
fn by_pin(tpm: &mut Device, session: u32) -> Result<(), Refusal> {
    let pcrs = [vec![0, 0], selection(&[7, 11])].concat();
    send(tpm, 0x17f, &[session], None, &pcrs)?;
    send(tpm, 0x18c, &[session], None, &[]).map(|_| ())
}

/// Satisfies the second branch: TPM2_PolicySecret with the owner's passphrase.
fn by_passphrase(tpm: &mut Device, session: u32, passphrase: &[u8]) -> Result<(), Refusal> {
    send(tpm, 0x151, &[OWNER, session], Some(By::Password(passphrase)), &[0; 10]).map(|_| ())
}

/// Executes TPM2_PolicyOR with the branches.
fn either(tpm: &mut Device, session: u32, branches: &[Vec<u8>; 2]) -> Result<(), Refusal> {
    let digests = [vec![0, 0, 0, 2], sized(&branches[0]), sized(&branches[1])].concat();
    send(tpm, 0x171, &[session], None, &digests).map(|_| ())
}

/// Returns the digests of the branches, for the current values of the PCRs, and the digest of the
/// policy.
fn policy(tpm: &mut Device) -> Result<([Vec<u8>; 2], Vec<u8>), Refusal> {
    let trial = start_session(tpm, TRIAL)?;
    by_pin(tpm, trial)?;
    let first = digest_of(tpm, trial)?;
    let trial = start_session(tpm, TRIAL)?;
    by_passphrase(tpm, trial, PASSPHRASE)?;
    let branches = [first, digest_of(tpm, trial)?];
    let trial = start_session(tpm, TRIAL)?;
    either(tpm, trial, &branches)?;
    Ok((branches, digest_of(tpm, trial)?))
}

/// Returns the disk's key if one of the branches is satisfied, or the reason for the refusal.
fn opened(
    tpm: &mut Device,
    disk: u32,
    branches: &[Vec<u8>; 2],
    (pin, passphrase): (&[u8], &[u8]),
) -> Result<String, Refusal> {
    let session = start_session(tpm, POLICY)?;
    let key = by_pin(tpm, session).and_then(|()| match either(tpm, session, branches) {
        Ok(()) => unseal(tpm, disk, By::Policy(session, pin)),
        Err(_) => send(tpm, 0x180, &[session], None, &[]) // TPM2_PolicyRestart
            .and_then(|_| by_passphrase(tpm, session, passphrase))
            .and_then(|()| either(tpm, session, branches))
            .and_then(|()| unseal(tpm, disk, By::Policy(session, b""))),
    });
    flush(tpm, session)?;
    key
}

fn main() -> tpmsim::Result<()> {
    let tpm = &mut Device::new()?;
    tpm.start_up()?;
    send(tpm, 0x129, &[OWNER], Some(By::Password(b"")), &sized(PASSPHRASE))?;
    measure(tpm, 7, b"secure boot is on")?;
    measure(tpm, 11, b"kernel and initrd")?;
    let (branches, digest) = policy(tpm)?;

    let parent = storage_key(tpm, PASSPHRASE)?;
    let disk = sealed(tpm, parent, PIN, &digest, DISK_KEY)?;
    tell("With the PIN", opened(tpm, disk, &branches, (PIN, b"")));
    tell("With another PIN", opened(tpm, disk, &branches, (b"1234", b"")));

    measure(tpm, 11, b"the system is started")?;
    tell("After PCR 11 moved on", opened(tpm, disk, &branches, (PIN, b"a guess")));
    tell("With the passphrase", opened(tpm, disk, &branches, (PIN, PASSPHRASE)));
    Ok(())
}
