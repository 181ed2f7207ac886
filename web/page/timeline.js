// The slider for the steps of the script, and a mark for each step: a tall red mark for a refusal, a low green one for
// an accepted command, a line for a power cycle.

import { byId } from "./dom.js";
import { commandNumber } from "./fields.js";
import { commandWords, grouped } from "./words.js";

const THUMB = 16;

/** @param {import("./script.js").Step[]} steps @param {number} chosen @param {string} outcome of the chosen one */
export function showSteps(steps, chosen, outcome) {
  const slider = byId("slider");
  slider.max = String(Math.max(0, steps.length - 1));
  slider.value = String(Math.max(0, chosen));
  slider.disabled = steps.length < 2;
  const step = steps[chosen];
  slider.setAttribute("aria-valuetext", step ? `step ${chosen + 1} of ${steps.length}, ${stepWords(step)}, line ${step.line + 1}: ${outcome || "done"}` : "no step");
  byId("counter").textContent = `${grouped(chosen + 1)} of ${grouped(steps.length)}`;
  byId("back").disabled = chosen <= 0;
  byId("forth").disabled = chosen >= steps.length - 1;
}

/** @param {import("./script.js").Step} step */
const stepWords = ({ kind, buffer }) => (kind === "command" ? commandWords(commandNumber(buffer)) : kind === "power" ? "power cycle" : "the device begins");

/** @param {string} name */
const colour = (name) => getComputedStyle(document.documentElement).getPropertyValue(`--${name}`).trim();

const NONE = 0;
const COMMAND = 1;
const OTHER = 2;
const REFUSED = 3;

/**
 * Returns the mark at each pixel. If several steps share a pixel, the pixel gets their most notable
 * mark.
 * @param {import("./script.js").Step[]} steps @param {number[]} refusals
 * @param {number} span the number of pixels
 */
function marksOf(steps, refusals, span) {
  const marks = new Uint8Array(span + 1).fill(NONE);
  const last = Math.max(1, steps.length - 1);
  const placeOf = (/** @type {number} */ at) => Math.round((span * at) / last);
  for (let at = 0; at < steps.length; at += 1) {
    const place = placeOf(at);
    marks[place] = Math.max(marks[place], steps[at].kind === "command" ? COMMAND : OTHER);
  }
  for (const at of refusals) marks[placeOf(at)] = REFUSED;
  return marks;
}

/**
 * Draws the marks of one kind; marks that touch are drawn as one.
 * @param {CanvasRenderingContext2D} pen @param {Uint8Array} marks @param {number} mark
 * @param {{width: number, half: number, middle: number}} shape
 */
function drawKind(pen, marks, mark, { width, half, middle }) {
  for (let place = marks.indexOf(mark); place >= 0;) {
    let end = place + 1;
    while (width <= 1 && marks[end] === mark) end += 1;
    pen.fillRect(THUMB / 2 + place - width / 2, middle - half, width + end - place - 1, 2 * half);
    place = marks.indexOf(mark, end);
  }
}

/** A text that describes what is drawn now. */
let drawn = "";

/** @param {import("./script.js").Step[]} steps @param {number[]} refusals */
export function drawMarks(steps, refusals) {
  const canvas = byId("marks");
  const scale = devicePixelRatio || 1;
  const width = canvas.clientWidth;
  const height = canvas.clientHeight;
  if (width <= THUMB) return;
  const span = Math.floor(width - THUMB);
  const each = Math.max(1, Math.min(6, span / Math.max(1, steps.length) - 1));
  const middle = height / 2;
  const marks = marksOf(steps, refusals, span);
  const now = `${width} ${height} ${scale} ${each} ${colour("ground")} ${marks.join("")}`;
  if (now === drawn) return;
  drawn = now;
  canvas.width = width * scale;
  canvas.height = height * scale;
  const pen = canvas.getContext("2d");
  if (!pen) return;
  pen.scale(scale, scale);
  pen.fillStyle = colour("edge");
  pen.fillRect(THUMB / 2, middle - 0.5, span, 1);
  pen.fillStyle = colour("ok");
  drawKind(pen, marks, COMMAND, { width: each, half: 4, middle });
  pen.fillStyle = colour("dim");
  drawKind(pen, marks, OTHER, { width: 1, half: 13, middle });
  pen.fillStyle = colour("bad");
  drawKind(pen, marks, REFUSED, { width: each, half: 11, middle });
}
