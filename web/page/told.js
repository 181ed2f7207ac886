// A log with the reasons that tools/explain.py found, by the line of each command. The page plays
// the log like any script. After an edit, the reasons are no longer shown.

import { bytesOf } from "./bytes.js";
import { RANDOM_BYTES } from "./device.js";
import { heading, listed, make } from "./dom.js";
import { tableLink } from "./step_pane.js";

/**
 * @typedef {[string, string, string]} Fact a label, a value, and "had" or "wanted" or nothing
 * @typedef {{words: string, facts: Fact[], sentence: string, link: string}} Reason
 * @typedef {{
 *   reason?: Reason, notes?: Reason[], entries?: [number, Fact[]][],
 *   differs?: [string, string, string][], layer?: string, random?: string,
 * }} Event
 * @typedef {{parts: Node[], after: Node[], hasReason: boolean}} ToldShown what the pane of a step shows about
 *   a command
 * @typedef {{
 *   name: string, script: string, line: number, start: string, summary: string,
 *   events: Record<string, Event>,
 * }} Log the text of the log, the line to begin at, the device if the log does not contain it, and the
 *   findings about the command in each line
 */

export class Told {
  /** @param {Log | null} log */
  constructor(log) {
    this.log = log;
  }

  get script() {
    return this.log?.script ?? "";
  }

  get line() {
    return this.log?.line ?? -1;
  }

  /** Returns the image or the state text that the log begins with. */
  get start() {
    return this.log?.start ? bytesOf(this.log.start) : null;
  }

  leave() {
    this.log = null;
  }

  /**
   * Fills in the random bytes that the log itself does not contain.
   * @param {import("./script.js").Step[]} steps
   */
  complete(steps) {
    for (const step of steps) {
      const random = this.log?.events[step.line + 1]?.random;
      if (random) step.random = bytesOf(random.padEnd(2 * RANDOM_BYTES, "0"));
    }
  }

  /**
   * Returns what the explanation says about the command in a line, counted from 0.
   * @param {number} line
   * @returns {ToldShown | null}
   */
  at(line) {
    const event = this.log?.events[line + 1];
    if (!event) return null;
    return { parts: partsOf(event), after: entriesShown(event), hasReason: event.reason !== undefined };
  }
}

/** @param {Event} event */
function partsOf(event) {
  const found = [];
  for (const [words, log, model] of event.differs ?? []) {
    found.push(make("div", { class: "why" }, make("p", {}, `The log and the model part: ${words}.`), listed([["the log says", log], ["the model says", model]])));
  }
  if (event.layer) found.push(make("div", { class: "why note" }, make("p", {}, event.layer)));
  if (event.reason) found.push(reasonShown(event.reason, "why"));
  for (const it of event.notes ?? []) found.push(reasonShown(it, "why note"));
  return found;
}

/** @param {Reason} reason @param {string} kind */
function reasonShown({ words, facts, sentence, link }, kind) {
  return make("div", { class: kind }, make("p", {}, words), facts.length ? factsShown(facts) : null, make("p", { class: "dim" }, sentence, " ", tableLink(link)));
}

/** @param {Fact[]} those */
const factsShown = (those) =>
  listed(those.map(([label, value, sort]) => [label, sort ? make("span", { class: sort === "had" ? "had" : "new" }, value) : value]));

/**
 * Shows the values from which the HMACs of the command are computed.
 * @param {Event} event
 */
const entriesShown = (event) =>
  (event.entries ?? []).flatMap(([place, those]) => [heading(`The HMAC of entry ${place}`), factsShown(those)]);
