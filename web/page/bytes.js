// Bytes, hex and numbers. Numbers are big-endian.

/** The two digits of each byte. */
const DIGITS = Array.from({ length: 256 }, (_, byte) => byte.toString(16).padStart(2, "0"));
const encoder = new TextEncoder();
const decoder = new TextDecoder();

/** @param {Uint8Array} bytes */
export function hexOf(bytes) {
  let hex = "";
  for (const byte of bytes) hex += DIGITS[byte];
  return hex;
}

/**
 * Returns the bytes that an even number of hex digits encode.
 * @param {string} hex
 */
export function bytesOf(hex) {
  const bytes = new Uint8Array(hex.length >> 1);
  for (let at = 0; at < bytes.length; at += 1) {
    bytes[at] = parseInt(hex.slice(2 * at, 2 * at + 2), 16);
  }
  return bytes;
}

/** @param {string} text */
export const encoded = (text) => encoder.encode(text);

/** @param {Uint8Array} bytes */
export const decoded = (bytes) => decoder.decode(bytes);

/** @param {number} number @param {number} digits */
export const hexNumber = (number, digits) => number.toString(16).padStart(digits, "0");

/**
 * Returns the number that at most four bytes encode.
 * @param {Uint8Array} bytes
 */
export function numberOf(bytes) {
  let value = 0;
  for (const byte of bytes) value = value * 256 + byte;
  return value;
}

/** @param {...Uint8Array} parts */
export function joined(...parts) {
  const found = new Uint8Array(parts.reduce((size, it) => size + it.length, 0));
  let at = 0;
  for (const it of parts) {
    found.set(it, at);
    at += it.length;
  }
  return found;
}

/** @param {Uint8Array} one @param {Uint8Array} other */
export function areSame(one, other) {
  if (one === other) return true;
  return one.length === other.length && one.every((byte, at) => byte === other[at]);
}

/**
 * Reads numbers and byte strings from a byte array, one after another. If the array ends
 * within a number, the missing bytes count as 0. If it ends within a byte string, the result
 * is shorter.
 */
export class Reader {
  /** @param {Uint8Array} bytes @param {number} [at] */
  constructor(bytes, at = 0) {
    this.bytes = bytes;
    this.at = at;
  }

  get left() {
    return this.bytes.length - this.at;
  }

  /** @param {number} size at most six bytes, so that a Number represents it */
  number(size) {
    let value = 0;
    for (let place = 0; place < size; place += 1) {
      value = value * 256 + (this.bytes[this.at + place] ?? 0);
    }
    this.at += size;
    return value;
  }

  /** @param {number} size */
  big(size) {
    return BigInt(`0x0${hexOf(this.take(size))}`);
  }

  /** @param {number} size */
  take(size) {
    this.at += size;
    return this.bytes.subarray(this.at - size, this.at);
  }

  /** Returns the content of a buffer with a size field of two bytes. */
  sized() {
    return this.take(this.number(2));
  }

  /**
   * Reads a byte. If it is not 0, returns what `read` returns, and otherwise null.
   * @template T @param {() => T} read
   */
  optional(read) {
    return this.number(1) ? read() : null;
  }
}
