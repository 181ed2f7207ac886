// SHAKE256 of FIPS 202, computed synchronously, unlike the digests of the web platform.

const RATE = 136;
const ROUNDS = 24;

// On a path through the lanes 1, 10, 7 .., rho rotates each lane, and pi moves it to the position
// of the next lane on the path.
const PATH = [10, 7, 11, 17, 18, 3, 5, 16, 8, 21, 24, 4, 15, 23, 19, 13, 12, 2, 20, 14, 22, 9, 6, 1];
const TURNS = [1, 3, 6, 10, 15, 21, 28, 36, 45, 55, 2, 14, 27, 41, 56, 8, 25, 43, 62, 18, 39, 61, 20, 44];

/** Returns the constants that iota adds to lane 0 in each round, each as a low word and a high
 * word. */
function roundConstants() {
  const constants = new Int32Array(2 * ROUNDS);
  let register = 1;
  for (let bit = 0; bit < 7 * ROUNDS; bit++) {
    const place = 2 ** (bit % 7) - 1;
    if (register & 1) constants[2 * Math.floor(bit / 7) + (place >> 5)] ^= 1 << place;
    register = ((register << 1) ^ (register >> 7) * 0x171) & 0xff;
  }
  return constants;
}

const CONSTANTS = roundConstants();

// The indexes of the next column, and of the one after it, in a plane of five lanes. Each lane
// consists of two words.
const NEXT = [2, 3, 4, 5, 6, 7, 8, 9, 0, 1];
const AFTER_NEXT = [4, 5, 6, 7, 8, 9, 0, 1, 2, 3];
const BEFORE = [8, 9, 0, 1, 2, 3, 4, 5, 6, 7];
const row = new Int32Array(10);

/** @param {Int32Array} state */
function theta(state) {
  for (let x = 0; x < 10; x++) {
    row[x] = state[x] ^ state[x + 10] ^ state[x + 20] ^ state[x + 30] ^ state[x + 40];
  }
  for (let x = 0; x < 10; x++) {
    const next = NEXT[x];
    const added = row[BEFORE[x]] ^ (row[next] << 1) ^ (row[next ^ 1] >>> 31);
    for (let at = x; at < 50; at += 10) state[at] ^= added;
  }
}

/** @param {Int32Array} state */
function rhoAndPi(state) {
  let low = state[2];
  let high = state[3];
  for (let step = 0; step < PATH.length; step++) {
    const at = 2 * PATH[step];
    const left = TURNS[step] & 31;
    // A rotation by 32 bits or more also swaps the two words.
    const places = at ^ (TURNS[step] >> 5);
    const turnedLow = (low << left) | (high >>> (32 - left));
    const turnedHigh = (high << left) | (low >>> (32 - left));
    low = state[at];
    high = state[at + 1];
    state[places] = turnedLow;
    state[places ^ 1] = turnedHigh;
  }
}

/** @param {Int32Array} state */
function chi(state) {
  for (let start = 0; start < 50; start += 10) {
    for (let x = 0; x < 10; x++) row[x] = state[start + x];
    for (let x = 0; x < 10; x++) state[start + x] = row[x] ^ (~row[NEXT[x]] & row[AFTER_NEXT[x]]);
  }
}

/** @param {Int32Array} state */
function permute(state) {
  for (let round = 0; round < ROUNDS; round++) {
    theta(state);
    rhoAndPi(state);
    chi(state);
    state[0] ^= CONSTANTS[2 * round];
    state[1] ^= CONSTANTS[2 * round + 1];
  }
}

/**
 * Adds a byte to the state.
 * @param {Int32Array} state
 * @param {number} at
 * @param {number} byte
 */
function add(state, at, byte) {
  state[at >> 2] ^= byte << (8 * (at & 3));
}

/**
 * Returns the first bytes of the SHAKE256 output for a text.
 * @param {Uint8Array} text
 * @param {number} size
 */
export function shake256(text, size) {
  const state = new Int32Array(50);
  text.forEach((byte, at) => {
    add(state, at % RATE, byte);
    if (at % RATE === RATE - 1) permute(state);
  });
  add(state, text.length % RATE, 0x1f);
  add(state, RATE - 1, 0x80);
  const bytes = new Uint8Array(size);
  for (let at = 0; at < size; at++) {
    if (at % RATE === 0) permute(state);
    bytes[at] = state[(at % RATE) >> 2] >>> (8 * (at & 3));
  }
  return bytes;
}
