//! A secret is sent to the TPM in encrypted form. The session is bound to the owner, whose
//! authorization value is not sent at all. An eavesdropper learns neither the secret nor this value,
//! and cannot replay the commands.

mod commands;
mod session;

use commands::{answer_of, command, front, number, send, sized, tell, By, INDEX, OWNER};
use session::{sha256, Session, DECRYPT, ENCRYPT};
use tpmsim::{Device, Refusal};

const SECRET: &[u8] = b"a secret of 24 bytes, ok";
const OWNERS_VALUE: &[u8] = b"the owner's value";

/// The attributes of an NV index that the owner writes and reads, and the attribute that the device
/// adds when the index is written.
const BY_OWNER: u32 = 0x0002_0002;
const WRITTEN: u32 = 0x2000_0000;

/// Returns the public area of the index.
fn area(attributes: u32) -> Vec<u8> {
    [&number(INDEX)[..], &[0, 0x0b], &number(attributes), &[0, 0], &[0, SECRET.len() as u8]]
        .concat()
}

/// Returns the Names of the owner and of the index, which are part of cpHash.
fn names(attributes: u32) -> Vec<u8> {
    [&number(OWNER)[..], &[0, 0x0b], &sha256(&area(attributes))].concat()
}

/// A connection to a TPM, with an eavesdropper.
struct Way {
    tpm: Device,
    heard: Vec<u8>,
    last: Vec<u8>,
}

impl Way {
    /// Sends a command that the owner authorizes. Returns the decrypted parameters of its response.
    fn send(
        &mut self,
        session: &mut Session,
        code: u32,
        handles: &[u32],
        (names, parameters): (&[u8], &[u8]),
        attributes: u8,
    ) -> Result<Vec<u8>, Refusal> {
        let (entry, parameters) = session.entry(code, names, parameters, attributes);
        self.last = command(code, handles, Some(&By::Entry(&entry)), &parameters);
        let response = self.tpm.execute(&self.last);
        self.heard.extend(&self.last);
        self.heard.extend(response.bytes());
        Ok(session.answered(code, &answer_of(code, true, response.accepted()?)))
    }

    /// Reads the secret, which is encrypted in the response.
    fn read(&mut self, session: &mut Session) -> Result<String, Refusal> {
        let given = (&names(BY_OWNER | WRITTEN)[..], &[0, SECRET.len() as u8, 0, 0][..]);
        let data = self.send(session, 0x14e, &[OWNER, INDEX], given, ENCRYPT)?;
        Ok(String::from_utf8_lossy(front(&data).0).into_owned())
    }

    fn told(&self, what: &[u8]) -> &'static str {
        match self.heard.windows(what.len()).any(|it| it == what) {
            true => "heard",
            false => "not heard",
        }
    }
}

fn main() -> tpmsim::Result<()> {
    let mut tpm = Device::new()?;
    tpm.start_up()?;
    send(&mut tpm, 0x129, &[OWNER], Some(By::Password(b"")), &sized(OWNERS_VALUE))?;

    let session = &mut Session::start(&mut tpm, OWNER, OWNERS_VALUE)?;
    let way = &mut Way { tpm, heard: Vec::new(), last: Vec::new() };
    let index = [sized(b""), sized(&area(BY_OWNER))].concat();
    way.send(session, 0x12a, &[OWNER], (&number(OWNER), &index), 0)?;
    let data = [&sized(SECRET)[..], &[0, 0]].concat();
    way.send(session, 0x137, &[OWNER, INDEX], (&names(BY_OWNER), &data), DECRYPT)?;
    tell("Read", way.read(session));
    println!("The secret was {}", way.told(SECRET));
    println!("The owner's value was {}", way.told(OWNERS_VALUE));
    println!("Sent again: refused by {}", way.tpm.execute(&way.last).check());

    let guess = &mut Session::start(&mut way.tpm, OWNER, b"a guess")?;
    tell("By a guess", way.read(guess));
    Ok(())
}
