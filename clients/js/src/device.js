// A TPM 2.0 in this process: the proved device with an interface for JavaScript.

import { bytes, bytesOf, number, options, truth } from "./arguments.js";
import { BadArgument, DeviceEnded, Refused } from "./errors.js";
import { loaded } from "./load.js";
import { Log } from "./log.js";
import { LOCALITIES, MOST_MILLISECONDS, RANDOM_SIZE } from "./module.js";
import { COMMANDS } from "./names.js";
import { SeededBytes, SystemBytes } from "./random.js";
import { played } from "./script.js";
import { Words } from "./words.js";

/** @typedef {import("./chip.js").Chip} Chip */
/** @typedef {import("./module.js").Module} Module */
/** @typedef {import("./random.js").Source} Source */
/** @typedef {import("./script.js").Played} Played */

/**
 * The result of a command: its response, its row, the number of random bytes that it drew, and its trace,
 * which is empty if the completing layer is above the device.
 * @typedef {{
 *   response: Uint8Array,
 *   row: {code: number, check: string},
 *   drawn: number,
 *   trace: string,
 * }} Answer
 */

/**
 * The circumstances of a command: its locality (default 0); the milliseconds since the last command
 * (default 0); 256 random bytes for only this command; and whether the completing layer is above
 * the device.
 * @typedef {{
 *   locality?: number,
 *   elapsed?: number,
 *   random?: Uint8Array,
 *   complete?: boolean,
 * }} Event
 */

/**
 * What a device is made from: a seed, for the same random bytes in each run; the 256 bytes from
 * which its secrets are made; an image or a state text; and a module, if the package should not
 * search for one.
 * @typedef {{
 *   seed?: string | Uint8Array,
 *   manufactured?: Uint8Array,
 *   image?: Uint8Array,
 *   state?: Uint8Array,
 *   module?: BufferSource | WebAssembly.Module,
 * }} Making
 */

/** The offset of the code of a command or a response, and the size of the header. */
const CODE_AT = 6;
const HEADER_SIZE = 10;

/** The check that refuses commands which the device does not have. */
const NO_SUCH_COMMAND = "G4";

/**
 * Returns the code in the header of a command or a response.
 * @param {Uint8Array} buffer
 */
const codeOf = (buffer) => new DataView(buffer.buffer, buffer.byteOffset).getUint32(CODE_AT);

/**
 * Says that the device has no command with this code, or whose bytes are in the other order.
 * @param {number} code
 */
function missingWords(code) {
  const view = new DataView(new ArrayBuffer(4));
  view.setUint32(0, code);
  const turned = COMMANDS.get(view.getUint32(0, true));
  const words = turned === undefined ? "tpmsim has no such command" : `its bytes in the other order are ${turned}`;
  return ` (${code.toString(16).toUpperCase()}): ${words}`;
}

/** The key that the constructor requires. Only `Device.create` has access to it. */
const KEY = Symbol("Device.create");

// The memory of a device is also freed if the device is garbage-collected.
const forgotten = new FinalizationRegistry((/** @type {Chip} */ chip) => chip.release());

/**
 * Returns the source of a device's random bytes.
 * @param {string | Uint8Array | undefined} seed
 * @returns {Source}
 */
function sourceOf(seed) {
  if (seed === undefined) return new SystemBytes();
  return new SeededBytes(typeof seed === "string" ? seed : bytes("seed", seed));
}

/** A device. */
export class Device {
  /** @type {Chip | null} */
  #chip;
  #source;
  #module;
  #words;
  /** @type {Log | null} */
  #log = null;

  /**
   * @param {symbol} key
   * @param {Chip} chip
   * @param {Source} source
   * @param {Module} module
   */
  constructor(key, chip, source, module) {
    if (key !== KEY) throw new BadArgument("key", "known: Device.create makes devices");
    this.#chip = chip;
    this.#source = source;
    this.#module = module;
    this.#words = new Words(module);
    forgotten.register(this, chip, this);
  }

  /**
   * Makes a new device, which has just been powered on, or a device from an image or a state text.
   * @param {Making} [making]
   * @returns {Promise<Device>}
   */
  static async create(making) {
    const names = /** @type {const} */ (["seed", "manufactured", "image", "state", "module"]);
    const { seed, manufactured, image, state, module } = options(making, names);
    const source = sourceOf(seed);
    const secrets =
      manufactured === undefined
        ? source.secrets()
        : bytesOf("manufactured", manufactured, RANDOM_SIZE).slice();
    const given = await loaded(module);
    const device = new Device(KEY, given.manufacture(secrets), source, given);
    try {
      if (image !== undefined) device.open(image);
      if (state !== undefined) device.restore(state);
    } catch (fault) {
      device.dispose();
      throw fault;
    }
    return device;
  }

  get #live() {
    if (this.#chip === null) throw new DeviceEnded();
    return this.#chip;
  }

  /** Commands and codes in words. */
  get words() {
    return this.#words;
  }

  /**
   * Executes a command, whatever its bytes are.
   * @param {Uint8Array} command
   * @param {Event} [event]
   * @returns {Answer}
   */
  execute(command, event) {
    const names = /** @type {const} */ (["locality", "elapsed", "random", "complete"]);
    const { locality = 0, elapsed = 0, random, complete = false } = options(event, names);
    const buffer = bytes("command", command);
    number("locality", locality, LOCALITIES - 1);
    number("elapsed", elapsed, MOST_MILLISECONDS);
    truth("complete", complete);
    const chip = this.#live;
    const drawable =
      random === undefined ? this.#source.next() : bytesOf("random", random, RANDOM_SIZE);
    const { response, code, check, drawn, trace } = complete
      ? chip.complete(buffer, locality, elapsed, drawable)
      : chip.execute(buffer, locality, elapsed, drawable);
    this.#log?.command({ buffer, locality, elapsed, drawn: drawable.slice(0, drawn), complete, response });
    if (random === undefined) this.#source.spend(drawn);
    return { response, row: { code, check }, drawn, trace };
  }

  /**
   * Executes a command in words, such as `GetRandom 4`. Throws BadLine if the words do not encode a
   * command.
   * @param {string} line
   * @param {Event} [event]
   * @returns {Answer}
   */
  do(line, event) {
    return this.execute(this.#words.assemble(line), event);
  }

  /**
   * Executes a command, as bytes or in words, like `execute` and `do`. Throws Refused if the device
   * refuses it.
   * @param {Uint8Array | string} command
   * @param {Event} [event]
   * @returns {Answer}
   */
  accepted(command, event) {
    const buffer = typeof command === "string" ? this.#words.assemble(command) : command;
    const answer = this.execute(buffer, event);
    const code = codeOf(answer.response);
    if (code === 0) return answer;
    const number = answer.row.code || (buffer.length < HEADER_SIZE ? 0 : codeOf(buffer));
    const name = COMMANDS.get(number) ?? "unknown command";
    const missing = answer.row.check === NO_SUCH_COMMAND ? missingWords(number) : "";
    throw new Refused(`${name}${missing}`, code, this.#words.meaning(code), answer);
  }

  /**
   * Plays a script line by line, as the caller iterates over its events. At an invalid line, throws
   * BadLine with the number of that line.
   * @param {string | Uint8Array} script
   * @returns {Generator<Played, void, undefined>}
   */
  play(script) {
    const lines = typeof script === "string" ? script : bytes("script", script).slice();
    return played(this, this.#module, lines);
  }

  /** Power-cycles the device, which then expects TPM2_Startup. */
  powerCycle() {
    this.#live.cyclePower();
    this.#log?.line("power");
  }

  /**
   * Returns the image, which contains everything that the device keeps while it has no power,
   * including its secrets.
   * @returns {Uint8Array}
   */
  save() {
    return this.#live.save();
  }

  /**
   * Returns everything that the device keeps while it has no power, except its clock. If this has
   * changed, the image should be saved again.
   * @returns {Uint8Array}
   */
  kept() {
    return this.#live.kept();
  }

  /**
   * Replaces the device with the one in an image, in the state after a power cycle. If it throws
   * BadImage, nothing changes.
   * @param {Uint8Array} image
   */
  open(image) {
    this.#live.open(bytes("image", image));
    if (this.#log !== null) this.beginLog();
  }

  /**
   * Returns the state text: the whole state of the device, with its sessions and its secrets.
   * @returns {Uint8Array}
   */
  snapshot() {
    return this.#live.snapshot();
  }

  /**
   * Restores the device from a state text. If it throws BadState, nothing changes.
   * @param {Uint8Array} state
   */
  restore(state) {
    this.#live.restore(bytes("state", state));
    if (this.#log !== null) this.beginLog();
  }

  /** Begins a log from the current state of the device. Without this call, there is no log. */
  beginLog() {
    this.#log = new Log(this.snapshot());
  }

  /** The log, which tpmsim-explain reads, or an empty string. It contains all secrets. */
  get log() {
    return this.#log?.text ?? "";
  }

  /** Frees the device's memory after clearing it. Each later call throws DeviceEnded. */
  dispose() {
    if (this.#chip === null) return;
    forgotten.unregister(this);
    this.#chip.release();
    this.#chip = null;
  }
}

// `using tpm = await Device.create()` disposes of the device, where the language has `using`.
const disposing = /** @type {{dispose?: symbol}} */ (/** @type {unknown} */ (Symbol)).dispose;
if (disposing !== undefined) {
  Object.defineProperty(Device.prototype, disposing, { value: Device.prototype.dispose });
}
