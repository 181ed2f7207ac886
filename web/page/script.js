// Reads the lines of a script: the meaning of each line, and the resulting events.

import { MOST_LINES } from "./bounds.js";
import { areSame, bytesOf, hexNumber, hexOf } from "./bytes.js";
import { RANDOM_BYTES } from "./device.js";
import { atOnce } from "./turns.js";

/**
 * An event: the start of a device, a power cycle, or a command with the time that elapsed before it.
 * `answers` are the responses that the script itself records, as a log does. `completes` says that the
 * completing layer was above the device.
 * @typedef {{
 *   kind: "begin" | "power" | "command", line: number, buffer: Uint8Array, locality: number,
 *   elapsed: number, random: Uint8Array, answers: string[], completes: boolean,
 * }} Step
 * @typedef {import("./device.js").LineFault} LineFault
 * @typedef {{lines: string[], steps: Step[], faults: Map<number, LineFault>}} Script
 * @typedef {import("./device.js").ReadLine} ReadLine
 */

const MOST_KEPT = 2 * MOST_LINES;
const PART = 1 << 9;
/** A longer comment contains no response: a response has at most 4,096 bytes. */
const MOST_ANSWER = 1 << 14;
const NOTHING = new Uint8Array(0);
const ZEROS = new Uint8Array(RANDOM_BYTES);

/** The bytes from which a script's device is manufactured: 00 to ff. */
export const FIRST_RANDOM = Uint8Array.from({ length: RANDOM_BYTES }, (_, byte) => byte);

const TRACE = /^\S+ L\d \+\d+ \S+ [0-9a-f]{8}$/;
const GIVEN = /^# (?:\d\d:\d\d:\d\d\.\d{3} )?(\S+ L\d \+\d+ \S+ [0-9a-f]{8}|[0-9a-f]{8}|(?:8001|8002|00c4)[0-9a-f]{16,})$/;
const REPORTED = /^# (?:image|state) ((?:[0-9a-f]{2}){42,})$/;
const JOURNAL = /^# tpmsim (?:journal [12]|v[0-9a-f]{8}) [0-9a-f]{40} [0-9a-f]{16}$/;
const MARK = /^# ([0-9a-f]{52}) [0-9a-f]{16}$/;
const COMPLETED = "# completed";
const SUM = "sum ";
const CONTENT = /^# ((?:[0-9a-f]{2}){42,})$/;

/**
 * Returns whether a line starts a device, like the head of a journal or of a report.
 * @param {string} line
 */
export const isHead = (line) => line.startsWith("# ") && (REPORTED.test(line) || JOURNAL.test(line));

/**
 * The parsed form of each line, by its text.
 * @type {Map<string, ReadLine>}
 */
const kept = new Map();

/**
 * The random bytes of each entropy line that was read.
 * @type {WeakMap<Uint8Array, Uint8Array>}
 */
const repeated = new WeakMap();

/** @param {import("./device.js").Chip} chip @param {string} text @param {number} waited */
function lineOf(chip, text, waited) {
  const isWait = text.startsWith("wait ");
  const found = isWait ? undefined : kept.get(text);
  if (found) return found;
  const read = chip.readLine(text, isWait ? waited : 0);
  if (kept.size > MOST_KEPT) kept.clear();
  if (!isWait) kept.set(text, read);
  return read;
}

/**
 * Returns the response, the trace or the response code that a comment records, or null.
 * @param {string} line
 */
const givenIn = (line) => (line.length > MOST_ANSWER ? null : GIVEN.exec(line)?.[1] ?? null);

/**
 * Returns whether the responses precede their commands. If they do, the first response precedes all
 * commands.
 * @param {string[]} lines
 */
function answersComeFirst(lines) {
  for (const line of lines) {
    if (line.startsWith("cmd") || line.startsWith("do ")) return false;
    if (givenIn(line) !== null) return true;
  }
  return false;
}

/** Reads a script line by line. */
class Reading {
  /** @param {import("./device.js").Chip} chip @param {string[]} lines */
  constructor(chip, lines) {
    this.chip = chip;
    this.lines = lines;
    this.isBefore = answersComeFirst(lines);
    /** @type {Step[]} */
    this.steps = [];
    /** @type {Map<number, LineFault>} */
    this.faults = new Map();
    this.locality = 0;
    this.waited = 0;
    this.random = ZEROS;
    /** @type {string[]} */
    this.said = [];
    this.completes = false;
  }

  /** @param {number} at */
  comment(at) {
    const line = this.lines[at];
    if (line.charCodeAt(1) !== 0x20) return;
    const head = REPORTED.exec(line);
    if (head) this.begin(at, head[1]);
    else if (JOURNAL.test(line)) this.begin(at, CONTENT.exec(this.lines[at + 1] ?? "")?.[1] ?? "");
    const mark = MARK.exec(line);
    if (mark) this.mark(mark[1]);
    if (line === COMPLETED) this.completes = true;
    const given = head || mark ? null : givenIn(line);
    if (given === null) return;
    const last = this.steps[this.steps.length - 1];
    if (this.isBefore) this.said.push(given);
    else if (last?.kind === "command") last.answers.push(given);
  }

  /**
   * Reads the mark before a command in a journal: it says whether the completing layer was above
   * the device, and contains the checksum of the response.
   * @param {string} hex
   */
  mark(hex) {
    this.completes = hex.slice(10, 12) !== "00";
    this.said.push(SUM + hex.slice(36));
  }

  /** @param {number} line @param {string} hex */
  begin(line, hex) {
    this.locality = 0;
    this.random = ZEROS;
    this.add("begin", line, bytesOf(hex), 0);
  }

  /** @param {Step["kind"]} kind @param {number} line @param {Uint8Array} buffer @param {number} elapsed */
  add(kind, line, buffer, elapsed) {
    const { locality, random, said, completes } = this;
    this.steps.push({ kind, line, buffer, locality, elapsed, random, answers: said, completes });
    this.said = [];
    this.completes = false;
  }

  /** @param {number} at */
  take(at) {
    const text = this.lines[at];
    if (!text || text.charCodeAt(0) === 0x23) return text ? this.comment(at) : undefined;
    const read = lineOf(this.chip, text, this.waited);
    if (read.fault) return void this.faults.set(at, read.fault);
    if (read.kind === "loc") this.locality = read.number;
    if (read.kind === "wait") this.waited = read.waited;
    if (read.kind === "entropy") this.drawFrom(read.bytes);
    if (read.kind === "power") this.add("power", at, NOTHING, 0);
    if (read.kind !== "do" && read.kind !== "cmd") return undefined;
    this.add("command", at, read.bytes, this.waited);
    this.waited = 0;
    return undefined;
  }

  /** @param {Uint8Array} bytes at most 256, which are repeated */
  drawFrom(bytes) {
    const found = repeated.get(bytes) ?? Uint8Array.from({ length: RANDOM_BYTES }, (_, at) => bytes[at % bytes.length]);
    repeated.set(bytes, found);
    this.random = found;
  }
}

/**
 * Reads a script in parts of a few hundred lines.
 * @param {import("./device.js").Chip} chip @param {string[]} lines @returns {Generator<void, Script>}
 */
export function* readingOf(chip, lines) {
  const reading = new Reading(chip, lines);
  for (let at = 0; at < lines.length; at += 1) {
    if (at % PART === PART - 1) yield;
    reading.take(at);
  }
  return { lines, steps: reading.steps, faults: reading.faults };
}

/** @param {import("./device.js").Chip} chip @param {string[]} lines */
export const readScript = (chip, lines) => atOnce(readingOf(chip, lines));

/**
 * Returns whether two events are the same, except for their positions in the script.
 * @param {Step} one @param {Step} other
 */
export function isSameStep(one, other) {
  return one.kind === other.kind && one.locality === other.locality
    && one.elapsed === other.elapsed && one.completes === other.completes
    && areSame(one.buffer, other.buffer) && areSame(one.random, other.random);
}

const FNV = { high: 0xcbf29ce4, low: 0x84222325, primeLow: 0x1b3, primeHigh: 0x100, half: 2 ** 32 };

/**
 * Returns the checksum with which a journal records a response: 64-bit FNV-1a, computed in two halves.
 * @param {Uint8Array} bytes
 */
function sumOf(bytes) {
  let { high, low } = FNV;
  for (const byte of bytes) {
    const mixed = (low ^ byte) >>> 0;
    const product = mixed * FNV.primeLow;
    high = (high * FNV.primeLow + mixed * FNV.primeHigh + Math.floor(product / FNV.half)) >>> 0;
    low = product >>> 0;
  }
  return hexNumber(high, 8) + hexNumber(low, 8);
}

/**
 * Returns whether a response that a script records equals the device's response.
 * @param {string} given @param {import("./device.js").Answer} answer
 */
export function isAnswer(given, answer) {
  if (TRACE.test(given)) return given === answer.trace || !answer.trace;
  if (given.startsWith(SUM)) return given === SUM + sumOf(answer.response);
  const response = hexOf(answer.response);
  return given === response || (given.length === 8 && given === response.slice(12, 20));
}

/**
 * Returns the script as a log: each command with its response after it.
 * @param {Script} script @param {(import("./device.js").Answer | null)[]} answers
 */
export function logOf(script, answers) {
  const of = new Map(script.steps.map((step, at) => [step.line, answers[at]]));
  const found = [];
  for (const [at, line] of script.lines.entries()) {
    if (givenIn(line) !== null || MARK.test(line) || script.faults.has(at)) continue;
    found.push(line);
    const answer = of.get(at);
    if (answer && answer.response.length) found.push(`# ${hexOf(answer.response)}`);
  }
  return `${found.join("\n").replace(/\n+$/, "")}\n`;
}

/**
 * Returns a script for another device: replaces the script's own head with this one.
 * @param {string} text @param {string} head
 */
export function onDevice(text, head) {
  const lines = text.split("\n");
  const skipped = JOURNAL.test(lines[0] ?? "") ? 2 : REPORTED.test(lines[0] ?? "") ? 1 : 0;
  return [head, ...lines.slice(skipped)].join("\n");
}

/**
 * Returns a step's random bytes as the word of an entropy line.
 * @param {Uint8Array} random
 */
export function entropyWord(random) {
  return random.every((byte) => byte === random[0]) ? hexNumber(random[0], 2) : hexOf(random);
}
