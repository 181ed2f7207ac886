//! SHA-256, HMAC, KDFa, and AES-128 in CFB mode, which a session needs. A real program would use a
//! crate.

pub type Digest = [u8; 32];

const SHA256_START: [u32; 8] = [
    0x6a09e667, 0xbb67ae85, 0x3c6ef372, 0xa54ff53a, 0x510e527f, 0x9b05688c, 0x1f83d9ab, 0x5be0cd19,
];

const SHA256_ROUNDS: [u32; 64] = [
    0x428a2f98, 0x71374491, 0xb5c0fbcf, 0xe9b5dba5, 0x3956c25b, 0x59f111f1, 0x923f82a4, 0xab1c5ed5,
    0xd807aa98, 0x12835b01, 0x243185be, 0x550c7dc3, 0x72be5d74, 0x80deb1fe, 0x9bdc06a7, 0xc19bf174,
    0xe49b69c1, 0xefbe4786, 0x0fc19dc6, 0x240ca1cc, 0x2de92c6f, 0x4a7484aa, 0x5cb0a9dc, 0x76f988da,
    0x983e5152, 0xa831c66d, 0xb00327c8, 0xbf597fc7, 0xc6e00bf3, 0xd5a79147, 0x06ca6351, 0x14292967,
    0x27b70a85, 0x2e1b2138, 0x4d2c6dfc, 0x53380d13, 0x650a7354, 0x766a0abb, 0x81c2c92e, 0x92722c85,
    0xa2bfe8a1, 0xa81a664b, 0xc24b8b70, 0xc76c51a3, 0xd192e819, 0xd6990624, 0xf40e3585, 0x106aa070,
    0x19a4c116, 0x1e376c08, 0x2748774c, 0x34b0bcb5, 0x391c0cb3, 0x4ed8aa4a, 0x5b9cca4f, 0x682e6ff3,
    0x748f82ee, 0x78a5636f, 0x84c87814, 0x8cc70208, 0x90befffa, 0xa4506ceb, 0xbef9a3f7, 0xc67178f2,
];

/// Adds one block of 64 bytes to the state of SHA-256.
fn compress(state: &mut [u32; 8], block: &[u8]) {
    let mut words = [0u32; 64];
    for (word, bytes) in words.iter_mut().zip(block.chunks(4)) {
        *word = u32::from_be_bytes(bytes.try_into().expect("a word has four bytes"));
    }
    for at in 16..64 {
        let (two, fifteen) = (words[at - 2], words[at - 15]);
        let one = two.rotate_right(17) ^ two.rotate_right(19) ^ two >> 10;
        let zero = fifteen.rotate_right(7) ^ fifteen.rotate_right(18) ^ fifteen >> 3;
        words[at] = one.wrapping_add(words[at - 7]).wrapping_add(zero).wrapping_add(words[at - 16]);
    }
    let [mut a, mut b, mut c, mut d, mut e, mut f, mut g, mut h] = *state;
    for (word, constant) in words.iter().zip(SHA256_ROUNDS) {
        let sum = e.rotate_right(6) ^ e.rotate_right(11) ^ e.rotate_right(25);
        let first = (h.wrapping_add(sum).wrapping_add(e & f ^ !e & g))
            .wrapping_add(constant.wrapping_add(*word));
        let sum = a.rotate_right(2) ^ a.rotate_right(13) ^ a.rotate_right(22);
        let second = sum.wrapping_add(a & b ^ a & c ^ b & c);
        (h, g, f, e, d, c, b, a) =
            (g, f, e, d.wrapping_add(first), c, b, a, first.wrapping_add(second));
    }
    for (sum, word) in state.iter_mut().zip([a, b, c, d, e, f, g, h]) {
        *sum = sum.wrapping_add(word);
    }
}

pub fn sha256(text: &[u8]) -> Digest {
    let zeros = 63 - (text.len() + 8) % 64;
    let bits = (text.len() as u64 * 8).to_be_bytes();
    let padded = [text, &[0x80], &vec![0; zeros], &bits].concat();
    let mut state = SHA256_START;
    padded.chunks(64).for_each(|block| compress(&mut state, block));
    let mut digest = [0; 32];
    for (bytes, word) in digest.chunks_mut(4).zip(state) {
        bytes.copy_from_slice(&word.to_be_bytes());
    }
    digest
}

/// Returns the HMAC-SHA-256 of a text. The key has at most 64 bytes.
pub fn hmac(key: &[u8], text: &[u8]) -> Digest {
    let mut block = [0; 64];
    block[..key.len()].copy_from_slice(key);
    let inner = sha256(&[&block.map(|byte| byte ^ 0x36), text].concat());
    sha256(&[&block.map(|byte| byte ^ 0x5c)[..], &inner].concat())
}

/// Derives 256 bits from a key and two nonces.
pub fn kdfa(key: &[u8], label: &str, newer: &[u8], older: &[u8]) -> Digest {
    let one = 1u32.to_be_bytes();
    let bits = 256u32.to_be_bytes();
    hmac(key, &[&one, label.as_bytes(), &[0], newer, older, &bits].concat())
}

/// Doubles an element of the field that AES uses.
fn doubled(byte: u8) -> u8 {
    byte << 1 ^ if byte & 0x80 == 0 { 0 } else { 0x1b }
}

/// Returns the S-box of AES. In the loop, `power` runs through all elements except zero, and
/// `inverse` is its inverse.
fn substitutions() -> [u8; 256] {
    let mut table = [0x63; 256];
    let (mut power, mut inverse) = (1u8, 1u8);
    loop {
        power ^= doubled(power);
        inverse ^= inverse << 1;
        inverse ^= inverse << 2;
        inverse ^= inverse << 4;
        inverse ^= if inverse & 0x80 == 0 { 0 } else { 0x09 };
        let rotated = (1..5).fold(inverse, |sum, by| sum ^ inverse.rotate_left(by));
        table[usize::from(power)] = rotated ^ 0x63;
        if power == 1 {
            return table;
        }
    }
}

/// Encrypts one block with AES-128.
fn encrypt_block(key: &[u8; 16], block: &[u8; 16]) -> [u8; 16] {
    let table = substitutions();
    let substituted = |byte: u8| table[usize::from(byte)];
    let (mut key, mut constant) = (*key, 1);
    let mut state: [u8; 16] = std::array::from_fn(|at| block[at] ^ key[at]);
    for round in 1..=10 {
        for at in 0..4 {
            key[at] ^= substituted(key[12 + (at + 1) % 4]);
        }
        key[0] ^= constant;
        constant = doubled(constant);
        for at in 4..16 {
            key[at] ^= key[at - 4];
        }
        let shifted: [u8; 16] = std::array::from_fn(|at| substituted(state[at * 5 % 16]));
        let mixed = |at: usize| {
            let [a, b, c, d] = [0, 1, 2, 3].map(|by| shifted[at / 4 * 4 + (at + by) % 4]);
            doubled(a ^ b) ^ b ^ c ^ d
        };
        state =
            std::array::from_fn(|at| key[at] ^ if round == 10 { shifted[at] } else { mixed(at) });
    }
    state
}

/// Whether data are encrypted or decrypted.
#[derive(Clone, Copy, PartialEq)]
pub enum Way {
    Encrypt,
    Decrypt,
}

/// Encrypts or decrypts data with AES-128 in CFB mode. `both` consists of the key and the initial
/// vector.
pub fn cfb(both: &Digest, way: Way, data: &[u8]) -> Vec<u8> {
    let (key, start) = both.split_at(16);
    let key = key.try_into().expect("a key has 16 bytes");
    let mut before: [u8; 16] = start.try_into().expect("a block has 16 bytes");
    let mut changed = Vec::new();
    for block in data.chunks(16) {
        let mask = encrypt_block(key, &before);
        let out: Vec<u8> = block.iter().zip(mask).map(|(byte, mask)| byte ^ mask).collect();
        let encrypted = if way == Way::Encrypt { &out[..] } else { block };
        before[..block.len()].copy_from_slice(encrypted);
        changed.extend(&out);
    }
    changed
}
