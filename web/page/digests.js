// Computes digests and HMACs of whole texts, and the keys of sessions (TPM 2.0 Library, Part 1, 11.4.9
// and 19.6). The browser's own functions are asynchronous, and are not available to a page that is opened
// from a file.

import { encoded, joined } from "./bytes.js";

/**
 * A hash algorithm: the sizes of its digest and of its block, in bytes, and the function that
 * computes a digest.
 * @typedef {{size: number, block: number, digest: (text: Uint8Array) => Uint8Array}} Hash
 */

const PRIMES = 80;
const WORD = 0xffff_ffffn;

/** @param {number} count */
function primes(count) {
  /** @type {number[]} */
  const found = [];
  for (let number = 2; found.length < count; number += 1) {
    if (found.every((it) => number % it)) found.push(number);
  }
  return found;
}

/**
 * Returns the first 64 bits of the fraction of a number's square root (degree 2) or cube root (degree 3).
 * @param {number} number @param {bigint} degree
 */
function fraction(number, degree) {
  const wanted = BigInt(number) << (64n * degree);
  let low = 0n;
  let high = BigInt(number) << 64n;
  while (high - low > 1n) {
    const middle = (low + high) >> 1n;
    if (middle ** degree <= wanted) low = middle;
    else high = middle;
  }
  return BigInt.asUintN(64, low);
}

const FIRST = primes(PRIMES);
const ROUNDS = FIRST.map((it) => fraction(it, 3n));
const ROUNDS_32 = Uint32Array.from(ROUNDS, (it) => Number(it >> 32n));
const STARTS = FIRST.slice(0, 8).map((it) => fraction(it, 2n));
const STARTS_32 = STARTS.map((it) => Number(it >> 32n));
const STARTS_384 = FIRST.slice(8, 16).map((it) => fraction(it, 2n));
const STARTS_SHA1 = [0x67452301, 0xefcdab89, 0x98badcfe, 0x10325476, 0xc3d2e1f0];
const ROUNDS_SHA1 = [0x5a827999, 0x6ed9eba1, 0x8f1bbcdc, 0xca62c1d6];

/**
 * Pads a text with a 1 bit, zeros and its size in bits, to a whole number of blocks.
 * @param {Uint8Array} text @param {number} block @param {number} counter the size of the size field, in
 *   bytes
 */
function padded(text, block, counter) {
  const size = Math.ceil((text.length + 1 + counter) / block) * block;
  const found = new Uint8Array(size);
  found.set(text);
  found[text.length] = 0x80;
  new DataView(found.buffer).setBigUint64(size - 8, BigInt(text.length) * 8n);
  return found;
}

/** @param {Iterable<number>} words */
function bytesOfWords(words) {
  const all = [...words];
  const view = new DataView(new ArrayBuffer(4 * all.length));
  all.forEach((word, at) => view.setUint32(4 * at, word >>> 0));
  return new Uint8Array(view.buffer);
}

/** @param {number} word @param {number} by */
const left = (word, by) => (word << by) | (word >>> (32 - by));
/** @param {number} word @param {number} by */
const right = (word, by) => (word >>> by) | (word << (32 - by));

/** @param {number} round @param {number} b @param {number} c @param {number} d */
function mixed(round, b, c, d) {
  if (round < 20) return (b & c) | (~b & d);
  return round >= 40 && round < 60 ? (b & c) | (b & d) | (c & d) : b ^ c ^ d;
}

/** @param {Uint8Array} text */
function sha1(text) {
  const view = new DataView(padded(text, 64, 8).buffer);
  const state = Uint32Array.from(STARTS_SHA1);
  const words = new Uint32Array(80);
  for (let at = 0; at < view.byteLength; at += 64) {
    for (let it = 0; it < 16; it += 1) words[it] = view.getUint32(at + 4 * it);
    for (let it = 16; it < 80; it += 1) words[it] = left(words[it - 3] ^ words[it - 8] ^ words[it - 14] ^ words[it - 16], 1);
    let [a, b, c, d, e] = state;
    for (let it = 0; it < 80; it += 1) {
      const next = (left(a, 5) + mixed(it, b, c, d) + e + ROUNDS_SHA1[Math.floor(it / 20)] + words[it]) | 0;
      [e, d, c, b, a] = [d, c, left(b, 30), a, next];
    }
    [a, b, c, d, e].forEach((it, place) => (state[place] += it));
  }
  return bytesOfWords(state);
}

/** @param {Uint8Array} text */
function sha256(text) {
  const view = new DataView(padded(text, 64, 8).buffer);
  const state = Uint32Array.from(STARTS_32);
  const words = new Uint32Array(64);
  for (let at = 0; at < view.byteLength; at += 64) {
    for (let it = 0; it < 16; it += 1) words[it] = view.getUint32(at + 4 * it);
    for (let it = 16; it < 64; it += 1) {
      const [old, late] = [words[it - 15], words[it - 2]];
      const small = right(old, 7) ^ right(old, 18) ^ (old >>> 3);
      words[it] = words[it - 16] + small + words[it - 7] + (right(late, 17) ^ right(late, 19) ^ (late >>> 10));
    }
    let [a, b, c, d, e, f, g, h] = state;
    for (let it = 0; it < 64; it += 1) {
      const one = h + (right(e, 6) ^ right(e, 11) ^ right(e, 25)) + ((e & f) ^ (~e & g)) + ROUNDS_32[it] + words[it];
      const two = (right(a, 2) ^ right(a, 13) ^ right(a, 22)) + ((a & b) ^ (a & c) ^ (b & c));
      [h, g, f, e, d, c, b, a] = [g, f, e, (d + one) | 0, c, b, a, (one + two) | 0];
    }
    [a, b, c, d, e, f, g, h].forEach((it, place) => (state[place] += it));
  }
  return bytesOfWords(state);
}

/** @param {bigint} word @param {bigint} by */
const turned = (word, by) => BigInt.asUintN(64, (word >> by) | (word << (64n - by)));

/** @param {Uint8Array} text @param {bigint[]} starts */
function sha512(text, starts) {
  const view = new DataView(padded(text, 128, 16).buffer);
  const state = BigUint64Array.from(starts);
  const words = new BigUint64Array(80);
  for (let at = 0; at < view.byteLength; at += 128) {
    for (let it = 0; it < 16; it += 1) words[it] = view.getBigUint64(at + 8 * it);
    for (let it = 16; it < 80; it += 1) {
      const [old, late] = [words[it - 15], words[it - 2]];
      const small = turned(old, 1n) ^ turned(old, 8n) ^ (old >> 7n);
      words[it] = words[it - 16] + small + words[it - 7] + (turned(late, 19n) ^ turned(late, 61n) ^ (late >> 6n));
    }
    let [a, b, c, d, e, f, g, h] = state;
    for (let it = 0; it < 80; it += 1) {
      const one = h + (turned(e, 14n) ^ turned(e, 18n) ^ turned(e, 41n)) + ((e & f) ^ (~e & g)) + ROUNDS[it] + words[it];
      const two = (turned(a, 28n) ^ turned(a, 34n) ^ turned(a, 39n)) + ((a & b) ^ (a & c) ^ (b & c));
      [h, g, f, e, d, c, b, a] = [g, f, e, BigInt.asUintN(64, d + one), c, b, a, BigInt.asUintN(64, one + two)];
    }
    [a, b, c, d, e, f, g, h].forEach((it, place) => (state[place] += it));
  }
  return bytesOfWords([...state].flatMap((it) => [Number(it >> 32n), Number(it & WORD)]));
}

/**
 * The hash algorithms by their numbers (TPM_ALG_ID).
 * @type {Map<number, Hash>}
 */
export const HASHES = new Map([
  [0x0004, { size: 20, block: 64, digest: sha1 }],
  [0x000b, { size: 32, block: 64, digest: sha256 }],
  [0x000c, { size: 48, block: 128, digest: (text) => sha512(text, STARTS_384).subarray(0, 48) }],
  [0x000d, { size: 64, block: 128, digest: (text) => sha512(text, STARTS) }],
]);

/** @param {Hash} hash @param {Uint8Array} key @param {Uint8Array} text */
export function hmac({ block, digest }, key, text) {
  const whole = new Uint8Array(block);
  whole.set(key.length > block ? digest(key) : key);
  const inner = digest(joined(whole.map((it) => it ^ 0x36), text));
  return digest(joined(whole.map((it) => it ^ 0x5c), inner));
}

/**
 * KDFa: derives `size` bytes of a key for the purpose that the label names.
 * @param {Hash} hash @param {Uint8Array} key @param {string} label
 * @param {Uint8Array} newer @param {Uint8Array} older @param {number} size
 */
export function kdfa(hash, key, label, newer, older, size) {
  const text = joined(encoded(`${label}\0`), newer, older, bytesOfWords([8 * size]));
  const blocks = Array.from({ length: Math.ceil(size / hash.size) }, (_, at) => hmac(hash, key, joined(bytesOfWords([at + 1]), text)));
  return joined(...blocks).subarray(0, size);
}
