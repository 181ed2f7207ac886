// The devices of the page: two devices of the proved module. Each call takes the number of a
// device. Only clients/js/src uses the exports of the module.

import { BadImage, BadState } from "../../clients/js/src/errors.js";
import { Module } from "../../clients/js/src/module.js";

/**
 * @typedef {import("../../clients/js/src/chip.js").Answer} Answer
 * @typedef {import("../../clients/js/src/module.js").Kind} LineKind
 * @typedef {{name: string, kind: import("../../clients/js/src/module.js").Place, number: number}} Meaning
 * @typedef {{name: string, column: number, wanted: string}} LineFault
 * @typedef {{
 *   kind: LineKind, bytes: Uint8Array, number: number, waited: number, fault: LineFault | null,
 * }} ReadLine
 */

export const RANDOM_BYTES = 256;
const MOST_LINE = 65_536;

/**
 * Runs a call that may refuse a text. Returns the fault that it throws, or "" if it throws none.
 * @param {() => void} call
 */
function faultOf(call) {
  try {
    call();
    return "";
  } catch (error) {
    if (error instanceof BadImage || error instanceof BadState) return error.fault;
    throw error;
  }
}

export class Chip {
  /** @param {Module} module @param {number} devices */
  constructor(module, devices) {
    this.module = module;
    const random = new Uint8Array(RANDOM_BYTES);
    this.devices = Array.from({ length: devices }, () => module.manufacture(random));
    /** @type {Map<number, Meaning | null>} */
    this.meanings = new Map();
  }

  /** @param {BufferSource} bytes @param {number} devices */
  static async load(bytes, devices) {
    return new Chip(await Module.load(bytes), devices);
  }

  /**
   * Replaces a device with a newly manufactured one.
   * @param {number} device @param {Uint8Array} random
   */
  manufacture(device, random) {
    this.devices[device].release();
    this.devices[device] = this.module.manufacture(random);
  }

  /**
   * Executes a command.
   * @param {number} device @param {Uint8Array} buffer @param {number} locality
   * @param {number} elapsed @param {Uint8Array} random
   */
  execute(device, buffer, locality, elapsed, random) {
    return this.devices[device].execute(buffer, locality, elapsed, random);
  }

  /**
   * Executes a command with the completing layer above the device. The answer has no trace.
   * @param {number} device @param {Uint8Array} buffer @param {number} locality
   * @param {number} elapsed @param {Uint8Array} random
   */
  complete(device, buffer, locality, elapsed, random) {
    return { ...this.devices[device].complete(buffer, locality, elapsed, random), trace: "" };
  }

  /** @param {number} device */
  cyclePower(device) {
    this.devices[device].cyclePower();
  }

  /**
   * Returns the image of a device.
   * @param {number} device
   */
  save(device) {
    return this.devices[device].save();
  }

  /**
   * Returns the state text of a device, which is its whole state.
   * @param {number} device
   */
  snapshot(device) {
    return this.devices[device].snapshot();
  }

  /**
   * Opens an image. Returns its fault, or "".
   * @param {number} device @param {Uint8Array} image
   */
  open(device, image) {
    return faultOf(() => this.devices[device].open(image));
  }

  /**
   * Restores a state text. Returns its fault, or "".
   * @param {number} device @param {Uint8Array} text
   */
  restore(device, text) {
    return faultOf(() => this.devices[device].restore(text));
  }

  /**
   * Parses a line of a script. The script has waited `waited` milliseconds since the last command.
   * @param {string} text @param {number} waited
   * @returns {ReadLine}
   */
  readLine(text, waited) {
    if (text.length > MOST_LINE) return badLine("TooLong");
    const { kind, bytes, number, waited: after, fault, column, wanted } = this.module.readLine(text, waited);
    return { kind, bytes, number, waited: after, fault: fault ? { name: fault, column, wanted } : null };
  }

  /**
   * Returns what `tpmsim check` prints about the lines of a script: one text for each bad line.
   * @param {string[]} lines
   */
  report(lines) {
    let waited = 0;
    const texts = lines.map((line, at) => {
      const said = this.module.report(at + 1, line, waited);
      waited = said.waited;
      return said.text;
    });
    return texts.filter((text) => text);
  }

  /**
   * Returns a line in words that encodes a buffer, or "" if no line does.
   * @param {Uint8Array} buffer
   */
  spell(buffer) {
    return this.module.spell(buffer);
  }

  /**
   * Returns an example of what follows the name of a command.
   * @param {number} number
   */
  example(number) {
    return this.module.commandExample(number);
  }

  /**
   * Returns the meaning of a response code, or null if there is no such code.
   * @param {number} code
   */
  meaning(code) {
    let found = this.meanings.get(code);
    if (found === undefined) {
      const read = this.module.meaning(code);
      found = read && { name: read.name, kind: read.place, number: read.number };
      this.meanings.set(code, found);
    }
    return found;
  }

  /**
   * Power-cycles a device, and returns the head of a new journal.
   * @param {number} device
   */
  beginJournal(device) {
    return this.devices[device].beginJournal(0);
  }

  /**
   * Returns the head of a new journal that begins with the device's current state.
   * @param {number} device
   */
  continueJournal(device) {
    return this.devices[device].checkpointJournal(0);
  }

  /**
   * Executes a command at a time in milliseconds, and returns its journal entry.
   * @param {number} device @param {import("./script.js").Step} step @param {number} now
   */
  executeInJournal(device, { buffer, locality, random, completes }, now) {
    return this.devices[device].executeInJournal(buffer, locality, now, completes, random).entry;
  }
}

/** @param {string} name @returns {ReadLine} */
function badLine(name) {
  return { kind: "", bytes: new Uint8Array(0), number: 0, waited: 0, fault: { name, column: 0, wanted: "" } };
}
