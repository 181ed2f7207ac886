// The proved module: how it is loaded, and its exports for words. chip.js uses the exports for
// devices, and no other file uses an export. The functions here do not check arguments: device.js
// and words.js check them.

import { Chip } from "./chip.js";
import { NoModule } from "./errors.js";
import { Memory } from "./memory.js";

/**
 * A parsed line. `fault` is empty, or the fault's name. `column` is counted from 1, and is 0 if
 * there is no fault; `wanted` is what is expected there.
 * @typedef {{bytes: Uint8Array, fault: string, column: number, wanted: string}} Read
 */

/**
 * A line of a script. `number` is the locality, the milliseconds of a wait, or the milliseconds
 * that passed before a command. `waited` is the time since the last command. The kind is empty for
 * an empty line, a comment and an invalid line.
 * @typedef {"" | "cmd" | "do" | "loc" | "wait" | "entropy" | "power"} Kind
 * @typedef {Read & {kind: Kind, number: number, waited: number}} ScriptLine
 */

/**
 * The meaning of a response code: its name, and the handle, parameter or session that is at fault.
 * @typedef {"" | "handle" | "parameter" | "session"} Place
 * @typedef {{name: string, place: Place, number: number}} Meaning
 */

/**
 * The addresses of the blocks that have fixed sizes.
 * @typedef {Record<keyof typeof SIZES, number>} Blocks
 */

export const RANDOM_SIZE = 256;
export const MOST_MILLISECONDS = 0xffff_ffff;
export const LOCALITIES = 5;

// The sizes of the structures and buffers of fixed size to which calls write.
const SIZES = {
  random: RANDOM_SIZE,
  response: 4096,
  answered: 32,
  trace: 64,
  written: 32_768,
  wanted: 64,
  read: 32,
  waited: 4,
  report: 256,
  taken: 8,
  entry: 9216,
  words: 256,
  place: 4,
};

/** @type {readonly Kind[]} */
const KINDS = ["", "cmd", "do", "loc", "wait", "entropy", "power"];
/** @type {readonly Place[]} */
const AT_FAULT = ["", "handle", "parameter", "session"];
const LINE_FAULTS = ["", "BadName", "BadField", "Missing", "Range", "TooLong"];

const EXPORTS = [
  "memory",
  "__heap_base",
  "device_version",
  "device_size",
  "device_manufacture",
  "device_execute",
  "device_complete",
  "device_cycle_power",
  "device_save",
  "device_kept",
  "device_open",
  "device_snapshot",
  "device_restore",
  "device_release",
  "script_line",
  "script_report",
  "line_assemble",
  "line_spell",
  "command_number",
  "command_form",
  "command_example",
  "code_meaning",
  "journal_begin",
  "journal_checkpoint",
  "journal_open",
  "journal_follow",
  "journal_execute",
];

const encoder = new TextEncoder();
const decoder = new TextDecoder();

/** @param {Uint8Array} bytes */
const textOf = (bytes) => decoder.decode(bytes);

/** The module, which can contain any number of devices. */
export class Module {
  /** @type {any} */ #calls;
  #memory;
  #at;

  /**
   * Compiles a module, if it is not compiled yet, and makes its memory. Throws NoModule if it is
   * not the module of this version.
   * @param {BufferSource | WebAssembly.Module} source
   * @returns {Promise<Module>}
   */
  static async load(source) {
    let compiled;
    try {
      compiled = source instanceof WebAssembly.Module ? source : await WebAssembly.compile(source);
    } catch (cause) {
      throw new NoModule("the bytes are no module that runs here", { cause });
    }
    const there = new Set(WebAssembly.Module.exports(compiled).map((it) => it.name));
    const missing = EXPORTS.filter((it) => !there.has(it));
    if (missing.length > 0) throw new NoModule(`the module has no ${missing.join(", ")}`);
    if (WebAssembly.Module.imports(compiled).length > 0) throw new NoModule("the module has imports");
    return new Module(await WebAssembly.instantiate(compiled, {}));
  }

  /** @param {WebAssembly.Instance} instance */
  constructor(instance) {
    this.#calls = instance.exports;
    this.#memory = new Memory(this.#calls.memory, Number(this.#calls.__heap_base.value));
    const blocks = Object.entries(SIZES).map(([name, size]) => [name, this.#memory.lend(size)]);
    this.#at = /** @type {Blocks} */ (Object.fromEntries(blocks));
  }

  /** The version, such as `0.1.0`. */
  get version() {
    const number = this.#calls.device_version() >>> 0;
    return `${number >>> 16}.${(number >>> 8) & 0xff}.${number & 0xff}`;
  }

  /**
   * Makes a new device, whose secrets are made from these bytes.
   * @param {Uint8Array} random
   */
  manufacture(random) {
    return new Chip(this.#calls, this.#memory, this.#at, random);
  }

  /**
   * Parses a line of a script, without its newline.
   * @param {string | Uint8Array} line
   * @param {number} waited milliseconds since the last command
   * @returns {ScriptLine}
   */
  readLine(line, waited) {
    const { written, wanted, read } = this.#at;
    const bytes = typeof line === "string" ? encoder.encode(line) : line;
    this.#memory.putWord(this.#at.waited, waited);
    const places = [this.#at.waited, written, wanted, read].map(BigInt);
    this.#calls.script_line(...this.#memory.input(bytes), ...places);
    return {
      ...this.#read(written),
      kind: KINDS[this.#memory.byte(read + 28)],
      number: this.#memory.word(read + 24),
      waited: this.#memory.word(this.#at.waited),
    };
  }

  /**
   * Returns the line that the report on a script has about the script's line with this number,
   * including a newline; empty if the script's line is valid.
   * @param {number} number
   * @param {string | Uint8Array} line
   * @param {number} waited milliseconds since the last command
   * @returns {{text: string, waited: number}}
   */
  report(number, line, waited) {
    const { written, report } = this.#at;
    const bytes = typeof line === "string" ? encoder.encode(line) : line;
    this.#memory.putWord(this.#at.waited, waited);
    const places = [this.#at.waited, written, report].map(BigInt);
    const size = Number(this.#calls.script_report(number, ...this.#memory.input(bytes), ...places));
    if (size > SIZES.report) throw new NoModule(`what is wrong with line ${number} does not fit`);
    return { text: textOf(this.#memory.take(report, size)), waited: this.#memory.word(this.#at.waited) };
  }

  /**
   * Returns the buffer of a command in words.
   * @param {string | Uint8Array} words
   * @returns {Read}
   */
  assemble(words) {
    const { response, wanted, read } = this.#at;
    const bytes = typeof words === "string" ? encoder.encode(words) : words;
    this.#calls.line_assemble(...this.#memory.input(bytes), ...[response, wanted, read].map(BigInt));
    return this.#read(response);
  }

  /**
   * Returns a line in words that encodes the buffer, or an empty text if there is none.
   * @param {Uint8Array} command
   */
  spell(command) {
    const input = this.#memory.input(command);
    return textOf(this.#memory.output((...room) => this.#calls.line_spell(...input, ...room)));
  }

  /**
   * Returns the number of the command with this name, or 0 if there is none.
   * @param {string} name
   */
  commandNumber(name) {
    return this.#calls.command_number(...this.#memory.input(encoder.encode(name))) >>> 0;
  }

  /**
   * Returns the form of a command in words, such as `NV_Write @Entity Index Buffer u16`, or an
   * empty text if there is none.
   * @param {number} number
   */
  commandForm(number) {
    const size = Number(this.#calls.command_form(number, BigInt(this.#at.words)));
    return this.#memory.text(this.#at.words, size);
  }

  /**
   * Returns an example of the words that follow the name of a command.
   * @param {number} number
   */
  commandExample(number) {
    const size = Number(this.#calls.command_example(number, BigInt(this.#at.words)));
    return this.#memory.text(this.#at.words, size);
  }

  /**
   * Returns the meaning of a response code, or null if there is no such code.
   * @param {number} code
   * @returns {Meaning | null}
   */
  meaning(code) {
    const { words, place } = this.#at;
    const size = Number(this.#calls.code_meaning(code, BigInt(words), BigInt(place)));
    if (size === 0) return null;
    const where = this.#memory.word(place);
    const name = this.#memory.text(words, size);
    return { name, place: AT_FAULT[where >>> 8], number: where & 0xff };
  }

  /**
   * Returns the meaning of a line, or its fault.
   * @param {number} at where its bytes are
   */
  #read(at) {
    const { wanted, read } = this.#at;
    return {
      bytes: this.#memory.take(at, this.#memory.size(read)),
      fault: LINE_FAULTS[this.#memory.byte(read + 29)],
      column: this.#memory.size(read + 8),
      wanted: this.#memory.text(wanted, this.#memory.size(read + 16)),
    };
  }
}
