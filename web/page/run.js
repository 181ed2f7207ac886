// Plays a script, and stores the responses and states by their events. An event before the first
// edited line is not played again. To make this possible, the state before each 64th event is
// stored as a state text, from which playing can continue.

import { decoded } from "./bytes.js";
import { responseCode } from "./fields.js";
import { FIRST_RANDOM, isAnswer, isSameStep } from "./script.js";
import { readState } from "./state.js";

/**
 * @typedef {import("./device.js").Chip} Chip
 * @typedef {import("./device.js").Answer} Answer
 * @typedef {import("./script.js").Step} Step
 * @typedef {import("./state.js").State} State
 */

const EVERY = 64;
const LEAST = 64;
const MOST_STATES = 256;
const PLAYED = 0;
const SHOWN = 1;
const IMAGE = "TPMI";

/** @type {Answer} */
const NO_ANSWER = { response: new Uint8Array(0), drawn: 0, trace: "", code: 0, check: "ok" };

export class Run {
  /** @param {Chip} chip with two devices */
  constructor(chip) {
    this.chip = chip;
    /** @type {Step[]} */
    this.steps = [];
    /** @type {Answer[]} */
    this.answers = [];
    /**
     * The numbers of the events that are refused.
     * @type {number[]}
     */
    this.refusals = [];
    /**
     * The numbers of the events whose response the script records otherwise.
     * @type {number[]}
     */
    this.parted = [];
    /** The number of events that are played, and whose recorded responses are compared. */
    this.compared = 0;
    /**
     * The state text before each 64th event.
     * @type {Uint8Array[]}
     */
    this.kept = [];
    this.shown = 0;
    /** @type {Map<number, State>} */
    this.states = new Map();
    chip.manufacture(SHOWN, FIRST_RANDOM);
    this.begin(null);
  }

  /**
   * Starts again. If an image or a state text is passed, starts with the device in it.
   * @param {Uint8Array | null} text
   */
  begin(text) {
    this.chip.manufacture(PLAYED, FIRST_RANDOM);
    if (text) this.#begin(PLAYED, text);
    this.steps = [];
    this.answers = [];
    this.refusals = [];
    this.parted = [];
    this.compared = 0;
    this.kept = [this.chip.snapshot(PLAYED)];
    this.chip.restore(SHOWN, this.kept[0]);
    this.shown = 0;
    this.states.clear();
  }

  get isPlayed() {
    return this.compared === this.steps.length;
  }

  /**
   * Replaces the events, and keeps the responses to the unchanged events at the beginning.
   * @param {Step[]} steps
   */
  take(steps) {
    const most = Math.min(this.answers.length, steps.length);
    let same = 0;
    let recorded = 0;
    for (; same < most && isSameStep(this.steps[same], steps[same]); same += 1) {
      if (recorded === same && hasSameAnswers(this.steps[same], steps[same])) recorded += 1;
    }
    this.steps = steps;
    this.compared = Math.min(this.compared, recorded);
    cutFrom(this.parted, this.compared);
    if (same === this.answers.length) return;
    this.answers.length = same;
    cutFrom(this.refusals, same);
    const from = Math.floor(same / EVERY);
    this.kept.length = from + 1;
    this.chip.restore(PLAYED, this.kept[from]);
    for (let at = from * EVERY; at < same; at += 1) this.#execute(PLAYED, steps[at]);
    for (const count of [...this.states.keys()]) if (count > same) this.states.delete(count);
    if (this.shown > same) this.shown = -1;
  }

  /**
   * Plays up to the event `least`, and then continues for at most this many milliseconds, until `most` events are
   * played.
   * @param {number} least @param {number} milliseconds @param {number} [most]
   */
  play(least, milliseconds, most = this.steps.length) {
    const end = performance.now() + milliseconds;
    while (this.compared < most) {
      const at = this.compared;
      if (at > least && at % 16 === 0 && performance.now() > end) return;
      if (at === this.answers.length) this.#answer(at);
      if (this.steps[at].answers.some((given) => !isAnswer(given, this.answers[at]))) this.parted.push(at);
      this.compared += 1;
    }
  }

  /** @param {number} at the first event that is not played */
  #answer(at) {
    if (at % EVERY === 0 && at) this.kept[at / EVERY] = this.chip.snapshot(PLAYED);
    const answer = this.#execute(PLAYED, this.steps[at]);
    if (responseCode(answer.response)) this.refusals.push(at);
    this.answers.push(answer);
  }

  /**
   * Plays until `count` events are played, but only some events and then for at most this many milliseconds. Returns
   * whether `count` events are played.
   * @param {number} count @param {number} milliseconds
   */
  reaches(count, milliseconds) {
    this.play(Math.min(count, this.compared + LEAST) - 1, milliseconds, count);
    return this.compared >= count;
  }

  /** @param {number} device @param {Step} step @returns {Answer} */
  #execute(device, step) {
    if (step.kind === "command") {
      const { buffer, locality, elapsed, random } = step;
      if (step.completes) return this.chip.complete(device, buffer, locality, elapsed, random);
      return this.chip.execute(device, buffer, locality, elapsed, random);
    }
    if (step.kind === "power") {
      this.chip.cyclePower(device);
      return NO_ANSWER;
    }
    const fault = this.#begin(device, step.buffer);
    return fault ? { ...NO_ANSWER, trace: fault } : NO_ANSWER;
  }

  /** @param {number} device @param {Uint8Array} text an image or a state text */
  #begin(device, text) {
    const isImage = decoded(text.subarray(0, 4)) === IMAGE;
    return isImage ? this.chip.open(device, text) : this.chip.restore(device, text);
  }

  /**
   * Brings the second device to the state after `count` events, and returns its number.
   * @param {number} count
   */
  #reach(count) {
    this.play(count - 1, 0);
    const near = Math.min(Math.floor(count / EVERY), this.kept.length - 1);
    if (this.shown < near * EVERY || this.shown > count) {
      this.chip.restore(SHOWN, this.kept[near]);
      this.shown = near * EVERY;
    }
    for (; this.shown < count; this.shown += 1) this.#execute(SHOWN, this.steps[this.shown]);
    return SHOWN;
  }

  /**
   * Returns the state after `count` events.
   * @param {number} count
   */
  stateAt(count) {
    let found = this.states.get(count);
    if (!found) {
      found = readState(this.chip.snapshot(this.#reach(count)));
      if (this.states.size >= MOST_STATES) this.states.clear();
      this.states.set(count, found);
    }
    return found;
  }

  /** @param {number} count */
  imageAt(count) {
    return this.chip.save(this.#reach(count));
  }

  /** @param {number} count */
  textAt(count) {
    return this.chip.snapshot(this.#reach(count));
  }

  /** Returns the journal since the last power cycle, from the first command on. */
  journal() {
    this.play(this.steps.length, 0);
    let from = this.steps.length - 1;
    while (from > 0 && this.steps[from].kind === "command") from -= 1;
    const isBegun = this.steps[from] && this.steps[from].kind !== "command";
    this.#reach(isBegun ? from + 1 : from);
    const isImage = isBegun && decoded(this.steps[from].buffer.subarray(0, 4)) !== "TPMS";
    const parts = [isImage || !isBegun ? this.chip.beginJournal(SHOWN) : this.chip.continueJournal(SHOWN)];
    let now = 0;
    for (const step of this.steps.slice(isBegun ? from + 1 : from)) {
      now += step.elapsed;
      parts.push(this.chip.executeInJournal(SHOWN, step, now));
    }
    this.shown = -1;
    return parts;
  }
}

/**
 * Returns whether a script records the same responses to two events.
 * @param {Step} one @param {Step} other
 */
const hasSameAnswers = (one, other) =>
  one.answers.length === other.answers.length && one.answers.every((it, at) => it === other.answers[at]);

/**
 * Removes the numbers from `least` on at the end of a rising list.
 * @param {number[]} numbers @param {number} least
 */
function cutFrom(numbers, least) {
  while ((numbers.at(-1) ?? -1) >= least) numbers.pop();
}
