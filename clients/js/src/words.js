// Commands, response codes and scripts in words, which the proved module parses and writes.

import { bytes, number, options, text } from "./arguments.js";
import { BadArgument, BadLine } from "./errors.js";
import { loaded } from "./load.js";
import { Module } from "./module.js";

/** @typedef {import("./module.js").Meaning} Meaning */

const LARGEST = 0xffff_ffff;
const CODE_AT = 6;
const HEADER_SIZE = 10;

/**
 * Returns the code of a response.
 * @param {Uint8Array} response
 */
function codeOf(response) {
  const checked = bytes("response", response);
  if (checked.length < HEADER_SIZE) throw new BadArgument("response", "of at least 10 bytes");
  return new DataView(checked.buffer, checked.byteOffset).getUint32(CODE_AT);
}

/** The module's conversions to and from words. */
export class Words {
  #module;

  /** @param {Module} module use `Words.load`, or a device's `words` */
  constructor(module) {
    if (!(module instanceof Module)) throw new BadArgument("module", "one that Words.load has loaded");
    this.#module = module;
  }

  /**
   * @param {{module?: BufferSource | WebAssembly.Module}} [given]
   * @returns {Promise<Words>}
   */
  static async load(given) {
    return new Words(await loaded(options(given, ["module"]).module));
  }

  /** The version of the module, such as `0.1.0`. */
  get version() {
    return this.#module.version;
  }

  /**
   * Returns the buffer of a command in words, such as `GetRandom 4`. Throws BadLine if the words do
   * not encode a command.
   * @param {string} line
   * @returns {Uint8Array}
   */
  assemble(line) {
    const { bytes: command, fault, column, wanted } = this.#module.assemble(text("line", line));
    if (fault) throw new BadLine(fault, column, wanted);
    return command;
  }

  /**
   * Returns a line in words that encodes exactly these bytes, or null if there is none.
   * @param {Uint8Array} command
   * @returns {string | null}
   */
  spell(command) {
    return this.#module.spell(bytes("command", command)) || null;
  }

  /**
   * Returns the meaning of a response or a response code, or null if there is no such code.
   * @param {Uint8Array | number} given
   * @returns {Meaning | null}
   */
  meaning(given) {
    const code = typeof given === "number" ? number("code", given, LARGEST) : codeOf(given);
    return this.#module.meaning(code);
  }

  /**
   * Returns the number of the command with this name, or null if there is none.
   * @param {string} name
   * @returns {number | null}
   */
  commandNumber(name) {
    return this.#module.commandNumber(text("name", name)) || null;
  }

  /**
   * Returns the name of the command with this number, or null if there is none.
   * @param {number} code
   * @returns {string | null}
   */
  commandName(code) {
    return this.commandForm(code)?.split(" ", 1)[0] ?? null;
  }

  /**
   * Returns the form of a command in words, such as `NV_Write @Entity Index Buffer u16`, or null if
   * there is none.
   * @param {number} code
   * @returns {string | null}
   */
  commandForm(code) {
    return this.#module.commandForm(number("code", code, LARGEST)) || null;
  }

  /**
   * Returns a complete line for a command, as an example, or null if there is none.
   * @param {number} code
   * @returns {string | null}
   */
  commandExample(code) {
    const name = this.commandName(code);
    return name === null ? null : `${name} ${this.#module.commandExample(code)}`.trimEnd();
  }
}
