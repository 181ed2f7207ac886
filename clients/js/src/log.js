// The log of a device, which tpmsim-explain reads.

/** @param {Uint8Array} bytes */
const hex = (bytes) => Array.from(bytes, (byte) => byte.toString(16).padStart(2, "0")).join("");

/**
 * A command that was executed, its circumstances, the random bytes that it drew, and its response.
 * @typedef {{
 *   buffer: Uint8Array,
 *   locality: number,
 *   elapsed: number,
 *   drawn: Uint8Array,
 *   complete: boolean,
 *   response: Uint8Array,
 * }} Logged
 */

/** The lines of a script, with the responses as comments. */
export class Log {
  #text;

  /** @param {Uint8Array} state the state text from which the log begins */
  constructor(state) {
    this.#text = `# state ${hex(state)}\n`;
  }

  get text() {
    return this.#text;
  }

  /** @param {string} line */
  line(line) {
    this.#text += `${line}\n`;
  }

  /** @param {Logged} executed */
  command({ buffer, locality, elapsed, drawn, complete, response }) {
    if (complete) this.line("# completed");
    this.line(`loc ${locality}`);
    if (elapsed > 0) this.line(`wait ${elapsed}`);
    if (drawn.length > 0) this.line(`entropy ${hex(drawn)}`);
    this.line(`cmd ${hex(buffer)}`);
    this.line(`# ${hex(response)}`);
  }
}
