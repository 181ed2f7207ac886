//! A session that computes HMACs, is bound to the entity that it authorizes, and encrypts with
//! AES-128-CFB.

mod crypto;

use crate::commands::{front, number, send, sized, Answer, NULL};
use crypto::{cfb, hmac, kdfa, Digest, Way};
use std::fs::File;
use std::io::{self, Read};
use tpmsim::{Device, Refusal};

pub use crypto::sha256;

/// Attributes of a session: the device decrypts the first parameter of the command, or encrypts
/// the first parameter of the response.
pub const DECRYPT: u8 = 0x20;
pub const ENCRYPT: u8 = 0x40;

const CONTINUES: u8 = 1;

pub struct Session {
    handle: u32,
    key: Digest,
    nonce_tpm: Vec<u8>,
    nonce_caller: [u8; 16],
    value: Vec<u8>,
}

fn new_nonce() -> io::Result<[u8; 16]> {
    let mut nonce = [0; 16];
    File::open("/dev/urandom")?.read_exact(&mut nonce)?;
    Ok(nonce)
}

/// Returns the parameters after encrypting or decrypting the first one, which is a sized buffer.
fn with_first_changed(keys: &Digest, way: Way, parameters: &[u8]) -> Vec<u8> {
    let (data, rest) = front(parameters);
    [&sized(&cfb(keys, way, data))[..], rest].concat()
}

impl Session {
    /// Starts a session that is bound to a handle with this authorization value.
    pub fn start(tpm: &mut Device, bind: u32, value: &[u8]) -> Result<Session, Refusal> {
        let nonce_caller = new_nonce().expect("the system has random bytes");
        let rest = [0, 0, 0, 0, 6, 0, 0x80, 0, 0x43, 0, 0x0b];
        let parameters = [&sized(&nonce_caller)[..], &rest].concat();
        let answer = send(tpm, 0x176, &[NULL, bind], None, &parameters)?;
        let nonce_tpm = answer.buffers(1).remove(0);
        let key = kdfa(value, "ATH", &nonce_tpm, &nonce_caller);
        let value = value.to_vec();
        Ok(Session { handle: answer.handle, key, nonce_tpm, nonce_caller, value })
    }

    /// Returns the key and the initial vector for two nonces.
    fn keys(&self, newer: &[u8], older: &[u8]) -> Digest {
        kdfa(&[&self.key[..], &self.value].concat(), "CFB", newer, older)
    }

    /// Returns the authorization entry of a command whose handles have these Names, and the
    /// command's parameters. If the attributes request it, the first parameter is encrypted.
    pub fn entry(
        &mut self,
        code: u32,
        names: &[u8],
        parameters: &[u8],
        attributes: u8,
    ) -> (Vec<u8>, Vec<u8>) {
        self.nonce_caller = new_nonce().expect("the system has random bytes");
        let mut parameters = parameters.to_vec();
        if attributes & DECRYPT != 0 {
            let keys = self.keys(&self.nonce_caller, &self.nonce_tpm);
            parameters = with_first_changed(&keys, Way::Encrypt, &parameters);
        }
        let attributes = [attributes | CONTINUES];
        let cp_hash = sha256(&[&number(code)[..], names, &parameters].concat());
        let text = [&cp_hash[..], &self.nonce_caller, &self.nonce_tpm, &attributes].concat();
        let mac = sized(&hmac(&self.key, &text));
        let nonce = sized(&self.nonce_caller);
        ([&number(self.handle)[..], &nonce, &attributes, &mac].concat(), parameters)
    }

    /// Checks that the response came from the device, and returns the decrypted parameters.
    pub fn answered(&mut self, code: u32, answer: &Answer) -> Vec<u8> {
        let (nonce, rest) = front(&answer.entries);
        let attributes = &rest[..1];
        let rp_hash = sha256(&[&number(0)[..], &number(code), &answer.parameters].concat());
        let text = [&rp_hash[..], nonce, &self.nonce_caller, attributes].concat();
        assert_eq!(front(&rest[1..]).0, hmac(&self.key, &text), "the response is not the TPM's");
        self.nonce_tpm = nonce.to_vec();
        if attributes[0] & ENCRYPT == 0 {
            return answer.parameters.clone();
        }
        let keys = self.keys(&self.nonce_tpm, &self.nonce_caller);
        with_first_changed(&keys, Way::Decrypt, &answer.parameters)
    }
}
