// The random bytes of a device, from the system or from a seed.

import { RANDOM_SIZE } from "./module.js";
import { shake256 } from "./shake.js";

const encoder = new TextEncoder();

/** The source of a device's random bytes: first its secrets, and then 256 bytes for each command.
 * @typedef {{secrets(): Uint8Array, next(): Uint8Array, spend(drawn: number): void}} Source
 */

/** Random bytes from the system. Bytes that a command did not draw are passed to the next command.
 * @implements {Source} */
export class SystemBytes {
  #bytes = new Uint8Array(RANDOM_SIZE);

  constructor() {
    this.spend(RANDOM_SIZE);
  }

  secrets() {
    return crypto.getRandomValues(new Uint8Array(RANDOM_SIZE));
  }

  next() {
    return this.#bytes;
  }

  /** @param {number} drawn the number of bytes that were drawn, from the front */
  spend(drawn) {
    if (drawn > 0) crypto.getRandomValues(this.#bytes.subarray(0, drawn));
  }
}

/** Random bytes from a seed, which are the same in each run, and in Python's `Device(seed=..)`.
 * @implements {Source} */
export class SeededBytes {
  #seed;
  #drawings = 0;

  /** @param {string | Uint8Array} seed */
  constructor(seed) {
    this.#seed = typeof seed === "string" ? encoder.encode(seed) : seed.slice();
  }

  secrets() {
    return shake256(this.#seed, RANDOM_SIZE);
  }

  next() {
    this.#drawings += 1;
    const number = encoder.encode(`${this.#drawings}`);
    const text = new Uint8Array(this.#seed.length + number.length);
    text.set(this.#seed);
    text.set(number, this.#seed.length);
    return shake256(text, RANDOM_SIZE);
  }

  spend() {}
}
