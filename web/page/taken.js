// Makes a script from what another program wrote about a TPM. The Python package `tpmsim.taken` reads the same forms.

import { blocksOf } from "./blocks.js";
import { MOST_LINES, MOST_TEXT } from "./bounds.js";
import { hexOf } from "./bytes.js";
import { isCapture, packetsOf } from "./capture.js";
import { codesIn, codeWords } from "./codes.js";
import { TAGS } from "./dumps.js";
import { byNumber, facts } from "./facts.js";
import { commandNumber } from "./fields.js";

const HEADER = 10;
export const MOST_BUFFER = 4096;
const PART = 1 << 10;
const STARTUP = "cmd 80010000000c00000144";
/** The first line of a script, a journal, a log or a text that the page itself made. */
const OWN_LINE = /^(?:(?:cmd|do|wait|loc|entropy) |power$)/;
const FIRST_LINE = /^[ \t]*[^#\s].*/m;

/**
 * @typedef {{text: string, count: number, remarks?: string[]}} Found a script, "" if it is too long for the page; the
 *   number of its commands and responses, or of codes; and what was left out
 */

/**
 * Returns the size of the buffer at an offset, as its header has it; 0 if no buffer begins there.
 * @param {ArrayLike<number>} bytes @param {number} at
 */
export function sizeAt(bytes, at) {
  if (at + HEADER > bytes.length || !TAGS.has(256 * bytes[at] + bytes[at + 1])) return 0;
  const size = bytes[at + 2] || bytes[at + 3] ? MOST_BUFFER + 1 : 256 * bytes[at + 4] + bytes[at + 5];
  return size >= HEADER && size <= MOST_BUFFER ? size : 0;
}

/**
 * Returns the buffers that follow each other in bytes; empty if there is anything else.
 * @param {number[]} bytes
 */
function split(bytes) {
  const found = [];
  for (let at = 0; at < bytes.length;) {
    const size = sizeAt(bytes, at);
    if (!size || at + size > bytes.length) return [];
    found.push(Uint8Array.from(bytes.slice(at, at + size)));
    at += size;
  }
  return found;
}

/**
 * Returns whether a buffer is a response. No command has the code 0, and each refusal has ten bytes. A command of ten
 * bytes has neither handles nor parameters.
 * @param {Uint8Array} buffer @param {boolean} isAfterCommand
 */
function isResponse(buffer, isAfterCommand) {
  const number = commandNumber(buffer);
  const command = byNumber.get(number);
  if (buffer.length > HEADER || number === 0) return number === 0;
  if (isAfterCommand || command) return !command || command.handles.length + command.parameters.length > 0;
  return !(number in facts.otherCommands);
}

/** The script of commands and responses, which are added in their order. */
export class Taking {
  constructor() {
    /** @type {string[]} */
    this.lines = [];
    /**
     * The responses without a command.
     * @type {Uint8Array[]}
     */
    this.orphans = [];
    this.size = 0;
    this.commands = 0;
    this.isAfter = false;
    this.last = "";
  }

  /** @param {Uint8Array} buffer @param {boolean | null} isKnown whether it is a response; null if only its bytes say it */
  add(buffer, isKnown = null) {
    const answers = isKnown ?? isResponse(buffer, this.isAfter);
    const hex = hexOf(buffer);
    if (answers && !this.isAfter) {
      // libtss2 prints a response twice
      if (hex !== this.last) this.orphans.push(buffer);
      return;
    }
    if (answers && commandNumber(buffer) === 0) this.#power();
    this.lines.push(`${answers ? "#" : "cmd"} ${hex}`);
    this.commands += answers ? 0 : 1;
    this.isAfter = !answers;
    this.last = hex;
    this.size += buffer.length;
  }

  /** Adds a power cycle before a TPM2_Startup that succeeded, unless it is the first command. */
  #power() {
    if (this.lines[this.lines.length - 1].startsWith(STARTUP) && this.commands > 1) this.lines.splice(-1, 0, "power");
  }

  /**
   * Returns the script or, without commands, what the codes of the responses mean; null if there is neither.
   * @param {string[]} remarks @returns {Found | null}
   */
  found(remarks = []) {
    const { lines, orphans, commands } = this;
    if (!commands) return codesFound([...new Set(orphans.map(commandNumber))], remarks);
    const count = orphans.length;
    const more = count ? [`${count} response${count > 1 ? "s" : ""} without a command ${count > 1 ? "are" : "is"} left out`] : [];
    const isLong = lines.length > MOST_LINES || 2 * this.size > MOST_TEXT;
    return { text: isLong ? "" : `${lines.join("\n")}\n`, count: lines.length, remarks: [...remarks, ...more] };
  }
}

/**
 * @param {number[]} codes @param {string[]} remarks @returns {Found | null}
 */
const codesFound = (codes, remarks) => (codes.length ? { text: codes.map(codeWords).join(""), count: codes.length, remarks } : null);

/**
 * Returns the script of a text in which another program printed commands, responses or codes; null for a script, and
 * for a text without any of these.
 * @param {string} text @returns {Generator<void, Found | null>}
 */
export function* takenOf(text) {
  const first = FIRST_LINE.exec(text);
  if (!first || OWN_LINE.test(first[0].trimEnd())) return null;
  const script = new Taking();
  /** @type {import("./blocks.js").Block[]} */
  const others = [];
  for (const block of yield* blocksOf(text)) {
    const buffers = buffersOf(block);
    for (const it of buffers) script.add(it);
    if (!buffers.length) others.push(block);
    if (script.lines.length % PART === 0) yield;
  }
  const remarks = others.flatMap((block) => cutWords(block, script));
  return script.found(remarks) ?? codesFound(codesIn(text), remarks);
}

/**
 * Returns the commands and responses of a block, by the first reading that is nothing else; or those of its lines.
 * @param {import("./blocks.js").Block} block
 */
function buffersOf({ readings, lines }) {
  const whole = firstSplit(readings);
  return whole.length ? whole : lines.flatMap(firstSplit);
}

/** @param {number[][]} readings */
function firstSplit(readings) {
  for (const it of readings) {
    const found = split(it);
    if (found.length) return found;
  }
  return [];
}

/**
 * Returns what is missing of a block that begins like a command or a response, unless the text also has the whole.
 * @param {import("./blocks.js").Block} block @param {Taking} script
 */
function cutWords({ line, readings }, script) {
  for (const it of readings) {
    const size = sizeAt(it, 0);
    const front = size > it.length ? hexOf(Uint8Array.from(it)) : "";
    if (front && !script.lines.some((other) => other.replace(/^\S+ /, "").startsWith(front))) {
      return [`line ${line}: ${size - it.length} of ${size} bytes are missing`];
    }
  }
  return [];
}

/**
 * Returns the script of a capture; null if it has no command and no response, and undefined if the bytes are no capture.
 * @param {Uint8Array} bytes @returns {Generator<void, Found | null | undefined>}
 */
export function* takenOfCapture(bytes) {
  if (!isCapture(bytes)) return undefined;
  const script = new Taking();
  let count = 0;
  for (const { payload, isResponse: isKnown } of packetsOf(bytes)) {
    count += 1;
    if (count % PART === 0) yield;
    for (let at = 0; at < payload.length;) {
      const size = sizeAt(payload, at);
      const buffer = payload.subarray(at, at + size);
      const isLikely = size > 0 && buffer.length === size && isNumber(commandNumber(buffer), size);
      if (isLikely) script.add(buffer, isKnown);
      at += isLikely ? size : 1;
    }
  }
  return script.found();
}

/** @param {number} number @param {number} size */
const isNumber = (number, size) => number === 0 || byNumber.has(number) || number in facts.otherCommands || size === HEADER;
