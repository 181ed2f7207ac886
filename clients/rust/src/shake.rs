//! SHAKE256 (FIPS 202), which derives the random bytes of a seeded device from its seed.

const ROUND_CONSTANTS: [u64; 24] = [
    0x0000000000000001,
    0x0000000000008082,
    0x800000000000808a,
    0x8000000080008000,
    0x000000000000808b,
    0x0000000080000001,
    0x8000000080008081,
    0x8000000000008009,
    0x000000000000008a,
    0x0000000000000088,
    0x0000000080008009,
    0x000000008000000a,
    0x000000008000808b,
    0x800000000000008b,
    0x8000000000008089,
    0x8000000000008003,
    0x8000000000008002,
    0x8000000000000080,
    0x000000000000800a,
    0x800000008000000a,
    0x8000000080008081,
    0x8000000000008080,
    0x0000000080000001,
    0x8000000080008008,
];

/// The steps rho and pi, lane by lane: the target of each lane, and the number of bits by which it
/// is rotated.
const MOVES: [(usize, u32); 24] = [
    (10, 1),
    (7, 3),
    (11, 6),
    (17, 10),
    (18, 15),
    (3, 21),
    (5, 28),
    (16, 36),
    (8, 45),
    (21, 55),
    (24, 2),
    (4, 14),
    (15, 27),
    (23, 41),
    (19, 56),
    (13, 8),
    (12, 25),
    (2, 43),
    (20, 62),
    (14, 18),
    (22, 39),
    (9, 61),
    (6, 20),
    (1, 44),
];

/// The number of bytes absorbed or squeezed between two permutations.
const RATE: usize = 136;

/// The step theta.
fn mix_columns(lanes: &mut [u64; 25]) {
    let parity: [u64; 5] = std::array::from_fn(|x| (0..5).fold(0, |sum, y| sum ^ lanes[x + 5 * y]));
    for (at, lane) in lanes.iter_mut().enumerate() {
        *lane ^= parity[(at + 4) % 5] ^ parity[(at + 1) % 5].rotate_left(1);
    }
}

/// The steps rho and pi.
fn move_lanes(lanes: &mut [u64; 25]) {
    let mut moved = lanes[1];
    for (target, bits) in MOVES {
        moved = std::mem::replace(&mut lanes[target], moved.rotate_left(bits));
    }
}

/// The step chi.
fn mix_rows(lanes: &mut [u64; 25]) {
    for row in lanes.chunks_exact_mut(5) {
        let before: [u64; 5] = std::array::from_fn(|x| row[x]);
        for (x, lane) in row.iter_mut().enumerate() {
            *lane ^= !before[(x + 1) % 5] & before[(x + 2) % 5];
        }
    }
}

/// Applies the permutation Keccak-f[1600].
fn permute(lanes: &mut [u64; 25]) {
    for constant in ROUND_CONSTANTS {
        mix_columns(lanes);
        move_lanes(lanes);
        mix_rows(lanes);
        lanes[0] ^= constant;
    }
}

/// Adds a byte to the state at an offset.
fn add(lanes: &mut [u64; 25], at: usize, byte: u8) {
    lanes[at / 8] ^= u64::from(byte) << (at % 8 * 8);
}

/// Returns the first 256 bytes of the SHAKE256 output for a text.
pub(crate) fn shake256(text: &[u8]) -> [u8; 256] {
    let mut lanes = [0; 25];
    for (at, byte) in text.iter().enumerate() {
        add(&mut lanes, at % RATE, *byte);
        if at % RATE == RATE - 1 {
            permute(&mut lanes);
        }
    }
    add(&mut lanes, text.len() % RATE, 0x1f);
    add(&mut lanes, RATE - 1, 0x80);
    permute(&mut lanes);
    let mut out = [0; 256];
    for (at, byte) in out.iter_mut().enumerate() {
        if at == RATE {
            permute(&mut lanes);
        }
        *byte = (lanes[at % RATE / 8] >> (at % 8 * 8)) as u8;
    }
    out
}

#[cfg(test)]
mod tests {
    use super::shake256;

    /// Returns the first bytes of the SHAKE256 output for a text, in hex.
    fn front(text: &[u8]) -> String {
        shake256(text)[..8].iter().map(|byte| format!("{byte:02x}")).collect()
    }

    #[test]
    fn is_that_of_the_standard() {
        assert_eq!(front(b""), "46b9dd2b0ba88d13");
        assert_eq!(front(b"abc"), "483366601360a877");
    }

    #[test]
    fn takes_texts_around_the_rate() {
        let ends: Vec<u8> = [135, 136, 137].map(|size| shake256(&vec![0xa3; size])[255]).to_vec();
        assert_eq!(ends, ENDS);
    }

    /// The expected values are from Python's hashlib.
    const ENDS: [u8; 3] = [145, 73, 22];
}
