//! A measured boot: each piece of software is measured into a PCR before it runs, and its digest is
//! logged. A verifier that gets the log and the PCR values replays the log on another TPM, and
//! trusts it if the values are the same.

mod commands;

use commands::{measure, selection, send, By};
use tpmsim::{Device, Refusal};

const BOOT: [(u8, &[u8]); 5] = [
    (0, b"firmware 1.0"),
    (7, b"secure boot is on"),
    (4, b"boot loader"),
    (11, b"kernel and initrd"),
    (11, b"enter-initrd"),
];
const PCRS: [u8; 4] = [0, 4, 7, 11];

/// The PCR and the digest of each measurement.
type Log = Vec<(u8, Vec<u8>)>;

fn boot(tpm: &mut Device) -> Result<Log, Refusal> {
    BOOT.iter().map(|(pcr, data)| Ok((*pcr, measure(tpm, *pcr, data)?))).collect()
}

/// Returns the values of the PCRs.
fn values(tpm: &mut Device) -> Result<Vec<Vec<u8>>, Refusal> {
    let answer = send(tpm, 0x17e, &[], None, &selection(&PCRS))?;
    // The values follow the update counter, the selection and the number of values.
    let values = &answer.parameters[4 + 10 + 4..];
    Ok(values.chunks_exact(2 + 32).map(|it| it[2..].to_vec()).collect())
}

/// Returns the values of the PCRs after the measurements in a log.
fn replayed(log: &Log) -> tpmsim::Result<Vec<Vec<u8>>> {
    let tpm = &mut Device::new()?;
    tpm.start_up()?;
    for (pcr, digest) in log {
        let digests = [&[0, 0, 0, 1, 0, 0x0b][..], digest].concat();
        send(tpm, 0x182, &[u32::from(*pcr)], Some(By::Password(b"")), &digests)?;
    }
    Ok(values(tpm)?)
}

/// Returns a verifier's judgement of a log.
fn verdict(log: &Log, values: &[Vec<u8>]) -> tpmsim::Result<String> {
    let replayed = replayed(log)?;
    let pairs = PCRS.iter().zip(replayed.iter().zip(values));
    let wrong: Vec<_> =
        pairs.filter(|(_, (one, other))| one != other).map(|(pcr, _)| pcr.to_string()).collect();
    Ok(match wrong.as_slice() {
        [] => "the PCRs are those of the log".into(),
        wrong => format!("PCR {} differ", wrong.join(", ")),
    })
}

fn main() -> tpmsim::Result<()> {
    let tpm = &mut Device::new()?;
    tpm.start_up()?;
    let log = boot(tpm)?;
    let values = values(tpm)?;
    println!("{} measurements: {}", log.len(), verdict(&log, &values)?);
    let mut shortened = log.clone();
    shortened.remove(2);
    println!("Without the boot loader's: {}", verdict(&shortened, &values)?);
    let mut turned = log.clone();
    turned.swap(3, 4);
    println!("In another order: {}", verdict(&turned, &values)?);
    let mut forged = log;
    forged[0].1 = measure(tpm, 0, b"firmware 1.1")?;
    println!("With another firmware: {}", verdict(&forged, &values)?);
    Ok(())
}
