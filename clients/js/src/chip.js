// One device of the proved module, and the module's exports for devices.

import { BadArgument, BadImage, BadJournal, BadState, DeviceEnded } from "./errors.js";

/** @typedef {import("./memory.js").Memory} Memory */
/** @typedef {import("./module.js").Blocks} Blocks */

/**
 * The result of a command. `check` is `ok`, or the check that refused the command, such as `G9`;
 * `code` is the command code, or 0 if the buffer contains none; `drawn` is the number of random
 * bytes that the command drew, from the first one on.
 * @typedef {{response: Uint8Array, code: number, check: string, drawn: number, trace: string}} Answer
 */

const HOLDER_SIZE = 8;
const TEXT_FAULTS = ["Short", "Magic", "Version", "Length", "Digest", "Body"];
const JOURNAL_FAULTS = ["NoJournal", "Damaged", "Otherwise"];

// The first return code for each kind of invalid bytes. The smaller codes report a missing device
// and an invalid locality.
const IMAGE_FROM = 4;
const JOURNAL_FROM = 10;
const STATE_FROM = 13;

// The return code for a state text of version 1.
const STATE_EARLIER = 21;

/** @param {number} number the number of a check */
const checkText = (number) => {
  if (number === 0) return "ok";
  if (number === 255) return "M";
  return number > 20 ? `A${number - 20}` : `G${number}`;
};

/**
 * Throws the error for a return code other than 0.
 * @param {number} told
 */
const mustBeDone = (told) => {
  if (told === 0) return;
  if (told === 2) throw new BadArgument("locality", "0 to 4");
  if (told === STATE_EARLIER) throw new BadState("Earlier");
  if (told >= STATE_FROM) throw new BadState(TEXT_FAULTS[told - STATE_FROM]);
  if (told >= JOURNAL_FROM) throw new BadJournal(JOURNAL_FAULTS[told - JOURNAL_FROM]);
  if (told >= IMAGE_FROM) throw new BadImage(TEXT_FAULTS[told - IMAGE_FROM]);
  throw new DeviceEnded();
};

/** One device of a module. It owns its memory until it is released. */
export class Chip {
  #calls;
  #memory;
  #at;
  #holder;
  #place;

  /**
   * @param {any} calls
   * @param {Memory} memory
   * @param {Blocks} at
   * @param {Uint8Array} random
   */
  constructor(calls, memory, at, random) {
    const size = Number(calls.device_size());
    this.#calls = calls;
    this.#memory = memory;
    this.#at = at;
    this.#holder = memory.lend(HOLDER_SIZE);
    this.#place = { at: memory.lend(size), size };
    memory.put(at.random, random);
    calls.device_manufacture(...[this.#holder, this.#place.at, at.random].map(BigInt));
  }

  /** Returns the address of the handle, as the parameter of a call. */
  get #device() {
    return BigInt(this.#holder);
  }

  /**
   * Executes a command.
   * @param {Uint8Array} command
   * @param {number} locality
   * @param {number} elapsed milliseconds since the last command
   * @param {Uint8Array} random 256 bytes
   * @returns {Answer}
   */
  execute(command, locality, elapsed, random) {
    const { answered, response, trace } = this.#at;
    const event = this.#event(command, locality, elapsed, random);
    mustBeDone(this.#calls.device_execute(...event, ...[response, answered, trace].map(BigInt)));
    return this.#answer();
  }

  /**
   * Executes a command with the completing layer above the device. No trace is written.
   * @param {Uint8Array} command
   * @param {number} locality
   * @param {number} elapsed milliseconds since the last command
   * @param {Uint8Array} random 256 bytes
   * @returns {Answer}
   */
  complete(command, locality, elapsed, random) {
    const { answered, response } = this.#at;
    const event = this.#event(command, locality, elapsed, random);
    mustBeDone(this.#calls.device_complete(...event, ...[response, answered].map(BigInt)));
    return this.#answer();
  }

  /** Power-cycles the device. */
  cyclePower() {
    mustBeDone(this.#calls.device_cycle_power(this.#device));
  }

  /** Returns the image. */
  save() {
    return this.#memory.output((at, size) => this.#calls.device_save(this.#device, at, size));
  }

  /** Returns everything that the device keeps while it has no power, except its clock. */
  kept() {
    return this.#memory.output((at, size) => this.#calls.device_kept(this.#device, at, size));
  }

  /**
   * Opens an image in this device. If it throws BadImage, the device is unchanged.
   * @param {Uint8Array} image
   */
  open(image) {
    mustBeDone(this.#calls.device_open(this.#device, ...this.#memory.input(image)));
  }

  /** Returns the state text. */
  snapshot() {
    return this.#memory.output((at, size) => this.#calls.device_snapshot(this.#device, at, size));
  }

  /**
   * Restores the device from a state text. If it throws BadState, the device is unchanged.
   * @param {Uint8Array} text
   */
  restore(text) {
    mustBeDone(this.#calls.device_restore(this.#device, ...this.#memory.input(text)));
  }

  /** Frees the memory. No other call may follow. */
  release() {
    this.#calls.device_release(this.#device);
    this.#memory.free(this.#holder, HOLDER_SIZE);
    this.#memory.free(this.#place.at, this.#place.size);
  }

  /**
   * Power-cycles the device, and returns the head of a new journal.
   * @param {number} now milliseconds of the host's clock
   */
  beginJournal(now) {
    return this.#memory.output((at, size) =>
      this.#calls.journal_begin(this.#device, BigInt(now), at, size),
    );
  }

  /**
   * Restarts the journal with a checkpoint, and returns the checkpoint.
   * @param {number} now milliseconds of the host's clock
   */
  checkpointJournal(now) {
    return this.#memory.output((at, size) =>
      this.#calls.journal_checkpoint(this.#device, BigInt(now), at, size),
    );
  }

  /**
   * Opens a journal in this device. Returns the size of the journal's head and complete entries. If
   * it throws BadJournal, BadImage or BadState, the device is unchanged.
   * @param {Uint8Array} text
   */
  openJournal(text) {
    const taken = BigInt(this.#at.taken);
    mustBeDone(this.#calls.journal_open(this.#device, ...this.#memory.input(text), taken));
    return this.#memory.size(this.#at.taken);
  }

  /**
   * Executes the entries of a later part of the journal, and returns the size of the complete
   * entries. Throws BadJournal if an entry is damaged or its response differs; the entries before
   * it have then been executed.
   * @param {Uint8Array} text
   */
  followJournal(text) {
    const taken = BigInt(this.#at.taken);
    mustBeDone(this.#calls.journal_follow(this.#device, ...this.#memory.input(text), taken));
    return this.#memory.size(this.#at.taken);
  }

  /**
   * Executes a command at a time of the host's clock, and also returns its entry for the journal.
   * @param {Uint8Array} command
   * @param {number} locality
   * @param {number} now milliseconds of the host's clock
   * @param {boolean} completes whether the completing layer is above the device
   * @param {Uint8Array} random 256 bytes
   * @returns {Answer & {entry: Uint8Array}}
   */
  executeInJournal(command, locality, now, completes, random) {
    const { response, answered, entry, taken } = this.#at;
    this.#memory.put(this.#at.random, random);
    const event = [...this.#memory.input(command), locality, BigInt(now), completes ? 1 : 0];
    const places = [this.#at.random, response, answered, entry, taken].map(BigInt);
    mustBeDone(this.#calls.journal_execute(this.#device, ...event, ...places));
    return { ...this.#answer(), entry: this.#memory.take(entry, this.#memory.size(taken)) };
  }

  /**
   * Returns the parameters of a call that executes a command, from the handle to the random bytes.
   * @param {Uint8Array} command
   * @param {number} locality
   * @param {number} elapsed
   * @param {Uint8Array} random
   */
  #event(command, locality, elapsed, random) {
    this.#memory.put(this.#at.random, random);
    const input = this.#memory.input(command);
    return [this.#device, ...input, locality, elapsed, BigInt(this.#at.random)];
  }

  #answer() {
    const { response, answered, trace } = this.#at;
    return {
      response: this.#memory.take(response, this.#memory.size(answered)),
      code: this.#memory.word(answered + 24),
      check: checkText(this.#memory.byte(answered + 28)),
      drawn: this.#memory.size(answered + 8),
      trace: this.#memory.text(trace, this.#memory.size(answered + 16)),
    };
  }
}
