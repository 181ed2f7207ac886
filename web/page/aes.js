// Encrypts a block with AES, and decrypts texts in AES's cipher feedback mode, with segments of a
// whole block (FIPS 197, SP 800-38A).

const BLOCK = 16;

/**
 * Doubles an element of the field that AES uses.
 * @param {number} byte
 */
const doubled = (byte) => ((byte << 1) ^ (byte & 0x80 ? 0x11b : 0)) & 0xff;

/** Returns the S-box, which it computes from the powers of 3 and of the inverse of 3. */
function substitution() {
  const box = new Uint8Array(256);
  let power = 1;
  let inverse = 1;
  do {
    power ^= doubled(power);
    inverse ^= inverse << 1;
    inverse ^= inverse << 2;
    inverse ^= inverse << 4;
    inverse &= 0xff;
    if (inverse & 0x80) inverse ^= 0x09;
    const spread = inverse | (inverse << 8);
    box[power] = (inverse ^ (spread >> 7) ^ (spread >> 6) ^ (spread >> 5) ^ (spread >> 4) ^ 0x63) & 0xff;
  } while (power !== 1);
  box[0] = 0x63;
  return box;
}

const BOX = substitution();

/**
 * Returns the keys of all rounds, one after another.
 * @param {Uint8Array} key of 16, 24 or 32 bytes
 */
function roundKeys(key) {
  const words = key.length / 4;
  const keys = new Uint8Array(BLOCK * (words + 7));
  keys.set(key);
  let constant = 1;
  for (let at = key.length; at < keys.length; at += 4) {
    let word = [...keys.subarray(at - 4, at)];
    const place = (at / 4) % words;
    if (place === 0) {
      word = [...word.slice(1), word[0]].map((it) => BOX[it]);
      word[0] ^= constant;
      constant = doubled(constant);
    } else if (words > 6 && place === 4) {
      word = word.map((it) => BOX[it]);
    }
    for (let it = 0; it < 4; it += 1) keys[at + it] = keys[at + it - key.length] ^ word[it];
  }
  return keys;
}

/** @param {Uint8Array} state */
function mixColumns(state) {
  for (let at = 0; at < BLOCK; at += 4) {
    const column = [...state.subarray(at, at + 4)];
    const all = column[0] ^ column[1] ^ column[2] ^ column[3];
    for (let it = 0; it < 4; it += 1) state[at + it] ^= all ^ doubled(column[it] ^ column[(it + 1) % 4]);
  }
}

/**
 * Encrypts a block.
 * @param {Uint8Array} keys of all rounds @param {Uint8Array} block
 */
function encryptedBlock(keys, block) {
  const rounds = keys.length / BLOCK - 1;
  let state = block.map((it, at) => it ^ keys[at]);
  for (let round = 1; round <= rounds; round += 1) {
    const before = state;
    state = before.map((_, at) => BOX[before[(at + 4 * (at % 4)) % BLOCK]]);
    if (round < rounds) mixColumns(state);
    for (let at = 0; at < BLOCK; at += 1) state[at] ^= keys[BLOCK * round + at];
  }
  return state;
}

/**
 * Decrypts a text. Its last block may be incomplete.
 * @param {Uint8Array} key @param {Uint8Array} iv @param {Uint8Array} text
 */
export function cfbDecrypted(key, iv, text) {
  const keys = roundKeys(key);
  const found = new Uint8Array(text.length);
  let before = iv;
  for (let at = 0; at < text.length; at += BLOCK) {
    const mask = encryptedBlock(keys, before);
    before = text.subarray(at, at + BLOCK);
    before.forEach((it, place) => (found[at + place] = it ^ mask[place]));
  }
  return found;
}
