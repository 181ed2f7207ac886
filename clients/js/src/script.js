// Plays the lines of a script on a device one after another, like `tpmsim run`.

import { BadLine } from "./errors.js";
import { RANDOM_SIZE } from "./module.js";

/** @typedef {import("./device.js").Answer} Answer */
/** @typedef {import("./device.js").Device} Device */
/** @typedef {import("./module.js").Module} Module */

/**
 * The effect of a line: a command with its result, or a power cycle, whose trace is `power`.
 * @typedef {{line: number, command: Uint8Array, answer: Answer, trace: string}} PlayedCommand
 * @typedef {{line: number, command: null, answer: null, trace: "power"}} PlayedPower
 * @typedef {PlayedCommand | PlayedPower} Played
 */

const NEWLINE = 0x0a;
const encoder = new TextEncoder();

/**
 * Returns the lines of a text without their newlines. The last line may lack its newline.
 * @param {Uint8Array} text
 */
function* lines(text) {
  for (let at = 0; at < text.length; ) {
    const found = text.indexOf(NEWLINE, at);
    const end = found < 0 ? text.length : found;
    yield text.subarray(at, end);
    at = end + 1;
  }
}

/**
 * Repeats a text up to the number of bytes that a command may draw.
 * @param {Uint8Array} text
 */
const repeated = (text) => Uint8Array.from({ length: RANDOM_SIZE }, (_, at) => text[at % text.length]);

/**
 * @param {Device} device
 * @param {Module} module
 * @param {string | Uint8Array} script
 * @returns {Generator<Played, void, undefined>}
 */
export function* played(device, module, script) {
  let locality = 0;
  let waited = 0;
  let random = new Uint8Array(RANDOM_SIZE);
  let line = 0;
  for (const text of lines(typeof script === "string" ? encoder.encode(script) : script)) {
    line += 1;
    const read = module.readLine(text, waited);
    if (read.fault) throw new BadLine(read.fault, read.column, read.wanted, line);
    waited = read.waited;
    if (read.kind === "loc") locality = read.number;
    if (read.kind === "entropy") random = repeated(read.bytes);
    if (read.kind === "power") {
      device.powerCycle();
      yield { line, command: null, answer: null, trace: "power" };
    }
    if (read.kind === "do" || read.kind === "cmd") {
      const answer = device.execute(read.bytes, { locality, elapsed: read.number, random });
      yield { line, command: read.bytes, answer, trace: answer.trace };
    }
  }
}
