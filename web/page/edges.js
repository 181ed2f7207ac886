// The edges between the panes, which the user drags, or moves with the arrow keys. A double click restores them.

import { byId } from "./dom.js";

const LEAST = 240;
const STEP = 24;
/** The pane next to each edge, and the direction in which that pane grows. */
const EDGES = [{ edge: "edge-script", pane: "script", sign: 1 }, { edge: "edge-device", pane: "device", sign: -1 }];

/** @param {string} edge @param {string} pane @param {number} width */
function widen(edge, pane, width) {
  const other = byId(pane === "script" ? "device" : "script").offsetWidth;
  const found = Math.round(Math.max(LEAST, Math.min(width, innerWidth - LEAST - other)));
  document.documentElement.style.setProperty(`--${pane}`, `${found}px`);
  byId(edge).setAttribute("aria-valuenow", String(found));
}

export function listenToEdges() {
  for (const { edge, pane, sign } of EDGES) {
    const line = byId(edge);
    const width = () => byId(pane).offsetWidth;
    for (const [name, value] of [["now", width()], ["min", LEAST], ["max", innerWidth]]) line.setAttribute(`aria-value${name}`, String(value));
    line.addEventListener("pointerdown", (/** @type {PointerEvent} */ event) => {
      const from = width() - sign * event.clientX;
      const move = (/** @type {PointerEvent} */ it) => widen(edge, pane, from + sign * it.clientX);
      line.setPointerCapture(event.pointerId);
      line.addEventListener("pointermove", move);
      line.addEventListener("lostpointercapture", () => line.removeEventListener("pointermove", move), { once: true });
    });
    line.addEventListener("keydown", (/** @type {KeyboardEvent} */ event) => {
      const by = { ArrowRight: STEP, ArrowLeft: -STEP }[event.key];
      if (!by || event.altKey) return;
      event.preventDefault();
      widen(edge, pane, width() + sign * by);
    });
    line.addEventListener("dblclick", () => document.documentElement.style.removeProperty(`--${pane}`));
  }
}
