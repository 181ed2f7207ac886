//! The code under test: it gets random bytes from a TPM. The TPM can be any function that returns a
//! response to a command.

/// Sends TPM2_GetRandom. Returns the bytes, or the response code if the TPM refuses.
pub fn random_bytes(send: &mut dyn FnMut(&[u8]) -> Vec<u8>, count: u16) -> Result<Vec<u8>, u32> {
    let mut command = vec![0x80, 1, 0, 0, 0, 12, 0, 0, 1, 0x7b];
    command.extend(count.to_be_bytes());
    let response = send(&command);
    let code = response[6..10]
        .iter()
        .fold(0, |sum, byte| sum << 8 | u32::from(*byte));
    match code {
        0 => Ok(response[12..].to_vec()),
        _ => Err(code),
    }
}
