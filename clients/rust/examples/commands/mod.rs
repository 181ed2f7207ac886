//! The bytes of the commands that the examples need. A real program would use a TPM library.
#![allow(dead_code)] // no example uses all of them

use tpmsim::{Device, Refusal};

pub const OWNER: u32 = 0x4000_0001;
pub const NULL: u32 = 0x4000_0007;
pub const LOCKOUT: u32 = 0x4000_000a;
pub const INDEX: u32 = 0x0100_0001;

pub const POLICY: u8 = 1;
pub const TRIAL: u8 = 3;

/// The commands that return a handle: CreatePrimary, Load and StartAuthSession.
const WITH_HANDLE: [u32; 3] = [0x131, 0x157, 0x176];

/// The authorization for a handle.
pub enum By<'a> {
    /// The authorization value, as a password.
    Password(&'a [u8]),
    /// A policy session, and the authorization value if the policy requires it as a password.
    Policy(u32, &'a [u8]),
    /// The complete entry of a session, with its HMAC.
    Entry(&'a [u8]),
}

impl By<'_> {
    /// Returns the entry for the authorization area.
    fn entry(&self) -> Vec<u8> {
        match self {
            By::Password(value) => [&number(0x4000_0009)[..], &[0, 0, 0], &sized(value)].concat(),
            By::Policy(session, value) => {
                [&number(*session)[..], &sized(&[0; 16]), &[1], &sized(value)].concat()
            }
            By::Entry(entry) => entry.to_vec(),
        }
    }
}

/// The response to a command, and the entries of its authorization area.
pub struct Answer {
    pub handle: u32,
    pub parameters: Vec<u8>,
    pub entries: Vec<u8>,
}

impl Answer {
    /// Returns the first `count` sized buffers of the parameters.
    pub fn buffers(&self, count: usize) -> Vec<Vec<u8>> {
        let mut rest = &self.parameters[..];
        (0..count)
            .map(|_| {
                let (buffer, behind) = front(rest);
                rest = behind;
                buffer.to_vec()
            })
            .collect()
    }
}

/// Returns the first sized buffer in some bytes, and the bytes after it.
pub fn front(bytes: &[u8]) -> (&[u8], &[u8]) {
    let size = usize::from(bytes[0]) << 8 | usize::from(bytes[1]);
    bytes[2..].split_at(size)
}

pub fn number(value: u32) -> [u8; 4] {
    value.to_be_bytes()
}

pub fn sized(bytes: &[u8]) -> Vec<u8> {
    [&(bytes.len() as u16).to_be_bytes()[..], bytes].concat()
}

/// Encodes a selection of PCRs in the SHA-256 bank.
pub fn selection(pcrs: &[u8]) -> Vec<u8> {
    let mut bits = [0; 3];
    for pcr in pcrs {
        bits[usize::from(pcr / 8)] |= 1 << (pcr % 8);
    }
    [&[0, 0, 0, 1, 0, 0x0b, 3][..], &bits].concat()
}

/// Returns the bytes of a command, with this authorization for its first handle.
pub fn command(code: u32, handles: &[u32], by: Option<&By>, parameters: &[u8]) -> Vec<u8> {
    let mut body: Vec<u8> = handles.iter().flat_map(|it| number(*it)).collect();
    if let Some(by) = by {
        let entry = by.entry();
        body.extend(number(entry.len() as u32));
        body.extend(entry);
    }
    body.extend(parameters);
    let tag = [0x80, if by.is_some() { 2 } else { 1 }];
    [&tag[..], &number(10 + body.len() as u32), &number(code), &body].concat()
}

/// Parses the bytes after the header of a response, with or without entries.
pub fn answer_of(code: u32, has_entries: bool, mut rest: &[u8]) -> Answer {
    let mut take = || {
        let (front, behind) = rest.split_at(4);
        rest = behind;
        u32::from_be_bytes(front.try_into().expect("there are four bytes"))
    };
    let handle = if WITH_HANDLE.contains(&code) { take() } else { 0 };
    let size = if has_entries { take() as usize } else { rest.len() };
    let (parameters, entries) = rest.split_at(size);
    Answer { handle, parameters: parameters.to_vec(), entries: entries.to_vec() }
}

/// Sends a command, with this authorization for its first handle.
pub fn send(
    tpm: &mut Device,
    code: u32,
    handles: &[u32],
    by: Option<By>,
    parameters: &[u8],
) -> Result<Answer, Refusal> {
    let response = tpm.execute(&command(code, handles, by.as_ref(), parameters));
    Ok(answer_of(code, by.is_some(), response.accepted()?))
}

/// Starts a SHA-256 session, neither bound nor salted.
pub fn start_session(tpm: &mut Device, kind: u8) -> Result<u32, Refusal> {
    let parameters = [&sized(&[0; 16])[..], &[0, 0, kind, 0, 0x10, 0, 0x0b]].concat();
    Ok(send(tpm, 0x176, &[NULL, NULL], None, &parameters)?.handle)
}

/// Flushes a session or an object.
pub fn flush(tpm: &mut Device, handle: u32) -> Result<(), Refusal> {
    send(tpm, 0x165, &[], None, &number(handle)).map(|_| ())
}

/// Returns the digest of a trial session, and ends the session.
pub fn digest_of(tpm: &mut Device, trial: u32) -> Result<Vec<u8>, Refusal> {
    let digest = send(tpm, 0x189, &[trial], None, &[])?.buffers(1).remove(0);
    flush(tpm, trial)?;
    Ok(digest)
}

/// Makes an AES storage key in the owner hierarchy. The same template always results in the same
/// key.
pub fn storage_key(tpm: &mut Device, owner: &[u8]) -> Result<u32, Refusal> {
    let template = [0, 0x25, 0, 0x0b, 0, 3, 4, 0x72, 0, 0, 0, 6, 0, 0x80, 0, 0x43, 0, 0];
    let parameters = [sized(&[0; 4]), sized(&template), vec![0; 6]].concat();
    Ok(send(tpm, 0x131, &[OWNER], Some(By::Password(owner)), &parameters)?.handle)
}

/// Seals data in a child of a storage key, with an authorization value and a policy, and loads the
/// object.
pub fn sealed(
    tpm: &mut Device,
    parent: u32,
    value: &[u8],
    policy: &[u8],
    data: &[u8],
) -> Result<u32, Refusal> {
    let sensitive = [sized(value), sized(data)].concat();
    let public = [&[0, 8, 0, 0x0b, 0, 0, 0, 0x12][..], &sized(policy), &[0, 0x10, 0, 0]].concat();
    let parameters = [sized(&sensitive), sized(&public), vec![0; 6]].concat();
    let made = send(tpm, 0x153, &[parent], Some(By::Password(b"")), &parameters)?.buffers(2);
    let areas = [sized(&made[0]), sized(&made[1])].concat();
    Ok(send(tpm, 0x157, &[parent], Some(By::Password(b"")), &areas)?.handle)
}

/// Returns the data that an object seals.
pub fn unseal(tpm: &mut Device, handle: u32, by: By) -> Result<String, Refusal> {
    let data = send(tpm, 0x15e, &[handle], Some(by), &[])?.buffers(1).remove(0);
    Ok(String::from_utf8_lossy(&data).into_owned())
}

/// Defines the NV index of the examples, with these attributes.
pub fn define(tpm: &mut Device, attributes: u32, value: &[u8]) -> Result<(), Refusal> {
    let area = [&number(INDEX)[..], &[0, 0x0b], &number(attributes), &[0, 0, 0, 8]].concat();
    let parameters = [sized(value), sized(&area)].concat();
    send(tpm, 0x12a, &[OWNER], Some(By::Password(b"")), &parameters).map(|_| ())
}

/// Measures data into a PCR. Returns the digest for the SHA-256 bank.
pub fn measure(tpm: &mut Device, pcr: u8, data: &[u8]) -> Result<Vec<u8>, Refusal> {
    let by = Some(By::Password(b""));
    let digests = send(tpm, 0x13c, &[pcr.into()], by, &sized(data))?.parameters;
    // The SHA-256 digest comes after the number of digests, and after the SHA-1 digest. Each digest
    // is preceded by its algorithm.
    Ok(digests[4 + 2 + 20 + 2..][..32].to_vec())
}

/// Prints a line of an example: the result, or why it was refused.
pub fn tell(what: &str, came: Result<String, Refusal>) {
    match came {
        Ok(text) => println!("{what}: {text}"),
        Err(refusal) => println!("{what}: {refusal}"),
    }
}
