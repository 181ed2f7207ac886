// Shows two versions of the script side by side, from the first step whose line or response differs.

import { areSame } from "./bytes.js";
import { byId, make } from "./dom.js";
import { grouped, plural } from "./words.js";

/**
 * @typedef {{line: number, text: string, outcome: string, response: Uint8Array}} Played a step of a version
 * @typedef {{go: (step: number) => void, played: () => Played[]}} Shell
 */

const BEFORE = 2;
const AFTER = 20;

export class Compare {
  /** @param {Shell} page */
  constructor(page) {
    this.page = page;
    /**
     * The version that was kept.
     * @type {Played[] | null}
     */
    this.kept = null;
  }

  /** Keeps the present version, or stops comparing. */
  toggle() {
    this.kept = this.kept ? null : this.page.played();
    byId("compare").setAttribute("aria-pressed", String(this.kept !== null));
    byId("compared").hidden = this.kept === null;
    this.look();
  }

  /** Shows where the present version first differs from the kept one. */
  look() {
    const { kept, page } = this;
    if (!kept) return;
    const now = page.played();
    const most = Math.max(kept.length, now.length);
    let first = 0;
    while (first < most && isSame(kept[first], now[first])) first += 1;
    const words = first < most ? `The versions first differ at step ${grouped(first + 1)}.` : `This version of ${plural(kept.length, "step")} is kept. Edit the script, or open another one: both are shown from the first difference.`;
    byId("compared").replaceChildren(
      make(
        "div", { class: "bar" }, make("p", { role: "status" }, words),
        first < most ? make("button", { type: "button", disabled: !now[first], onclick: () => page.go(first) }, "Go to the difference") : null,
        make("button", { type: "button", onclick: () => this.toggle() }, "Stop comparing"),
      ),
      first < most ? versionsShown(kept, now, first) : "",
    );
  }
}

/** @param {Played | undefined} one @param {Played | undefined} other */
const isSame = (one, other) => one !== undefined && other !== undefined && one.text === other.text && one.outcome === other.outcome && areSame(one.response, other.response);

/** @param {Played[]} kept @param {Played[]} now @param {number} first */
function versionsShown(kept, now, first) {
  const found = make("div", { class: "versions" }, make("h3", {}, "Kept version"), make("h3", {}, "This version"));
  const end = Math.min(Math.max(kept.length, now.length), first + AFTER);
  for (let at = Math.max(0, first - BEFORE); at < end; at += 1) {
    found.append(stepShown(kept[at], now[at], at === first), stepShown(now[at], kept[at], at === first));
  }
  return found;
}

/** @param {Played | undefined} step @param {Played | undefined} other @param {boolean} isFirst */
function stepShown(step, other, isFirst) {
  const kind = isFirst ? "version first" : "version";
  if (!step) return make("div", { class: kind }, make("span", { class: "dim" }, "no such step"));
  const isBad = step.outcome !== "ok" && step.outcome !== "";
  return make(
    "div", { class: kind }, make("span", { class: "number" }, String(step.line + 1)),
    make("code", {}, ...(isFirst && other ? marked(step.text, other.text) : [step.text])),
    step.outcome ? make("span", { class: isBad ? "badge bad" : "badge" }, step.outcome) : null,
  );
}

/**
 * Marks the part of a text in which it differs from another one.
 * @param {string} text @param {string} other
 */
function marked(text, other) {
  const most = Math.min(text.length, other.length);
  let from = 0;
  while (from < most && text[from] === other[from]) from += 1;
  let end = 0;
  while (end < most - from && text.at(-1 - end) === other.at(-1 - end)) end += 1;
  const to = text.length - end;
  return [text.slice(0, from), from < to ? make("mark", {}, text.slice(from, to)) : null, text.slice(to)];
}
