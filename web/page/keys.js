// What each key does, and which pane is shown if only one fits the screen.

import { byId, make } from "./dom.js";

/** @typedef {import("./page.js").Page} Page */

const PAGE_STEPS = 10;
const PANES = ["script", "detail", "device"];

/** @param {string} pane */
export function showPane(pane) {
  document.body.dataset.pane = pane;
  for (const tab of document.querySelectorAll("#tabs button")) {
    const isChosen = tab.getAttribute("data-pane") === pane;
    tab.setAttribute("aria-selected", String(isChosen));
    tab.setAttribute("tabindex", isChosen ? "0" : "-1");
  }
}

/** @param {Element} tab @param {KeyboardEvent} event */
export function tabKey(tab, event) {
  const by = { ArrowRight: 1, ArrowLeft: -1 }[event.key];
  if (!by) return;
  const at = PANES.indexOf(tab.getAttribute("data-pane") ?? "");
  const next = PANES[(at + by + PANES.length) % PANES.length];
  showPane(next);
  byId(`tab-${next}`).focus();
}

/**
 * Moves to the next pane or to the previous one.
 * @param {number} by
 */
function movePane(by) {
  const targets = ["text", "detail", "device"];
  const at = targets.findIndex((it) => byId(it).contains(document.activeElement));
  const next = (at + by + targets.length) % targets.length;
  showPane(PANES[next]);
  byId(targets[next]).focus();
}

/** @param {Page} page @param {KeyboardEvent} event */
export function byKey(page, event) {
  if (byId("keys").open) return;
  const by = { ArrowDown: 1, ArrowUp: -1, PageDown: PAGE_STEPS, PageUp: -PAGE_STEPS }[event.key];
  if (event.key === "Escape" && byId("drawer").contains(document.activeElement)) byId("reference").click();
  else if (by && event.altKey) page.go(by);
  else if (event.key === "F6") movePane(event.shiftKey ? -1 : 1);
  else if (!isTyping(event) && LETTERS[event.key]) LETTERS[event.key](page);
  else return;
  event.preventDefault();
}

/** @type {Record<string, (page: Page) => void>} */
const LETTERS = {
  j: (page) => page.go(1), k: (page) => page.go(-1), n: (page) => page.goToRefusal(1),
  N: (page) => page.goToRefusal(-1), "?": () => showKeys(),
  r: () => byId("reference").click(), c: () => byId("compare").click(),
  "/": () => {
    showPane("script");
    byId("text").focus();
  },
};

/** @param {KeyboardEvent} event */
function isTyping(event) {
  if (event.ctrlKey || event.metaKey || event.altKey) return true;
  return ["TEXTAREA", "SELECT", "INPUT"].includes(document.activeElement?.tagName ?? "");
}

/** @type {[string, string][]} */
const KEYS = [
  ["Alt+Down, Alt+Up", "next step, previous step"], ["Alt+PgDn, Alt+PgUp", "ten steps on, ten back"],
  ["F6, Shift+F6", "next pane, previous pane"], ["Ctrl+Space", "what may come next in the line"],
  ["Enter or Tab", "takes the completion; Tab also what was meant"], ["Esc", "closes the completions, the reference"],
  ["/", "to the script"], ["j, k", "next step, previous step, outside the script"],
  ["r", "the reference"], ["c", "keeps this version, and compares others with it"], ["Left, Right", "on an edge between panes: moves it"],
  ["n, N", "next refusal, previous refusal, outside the script"], ["Down, Up", "in a table of fields: lights the bytes of each"],
];

export function showKeys() {
  const list = make("dl");
  for (const [key, words] of KEYS) list.append(make("dt", {}, key), make("dd", {}, words));
  const close = make("button", { type: "button", onclick: () => byId("keys").close() }, "Close");
  byId("keys").replaceChildren(make("h2", { id: "keys-title" }, "Keyboard"), list, close);
  byId("keys").showModal();
}
