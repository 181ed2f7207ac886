// Shows where else a script uses the objects, indices and sessions that the chosen step uses.

import { hexNumber, numberOf } from "./bytes.js";
import { make } from "./dom.js";
import { byNumber } from "./facts.js";
import { commandNumber, fieldsOfCommand, responseCode } from "./fields.js";
import { entryHandles } from "./reason.js";
import { grouped } from "./words.js";

/**
 * @typedef {import("./script.js").Step} Step
 * @typedef {import("./device.js").Answer} Answer
 */

const FIRST_OF_ENTITIES = new Set([0x01, 0x02, 0x03, 0x80, 0x81]);
const ENDED_BY_POWER = new Set([0x02, 0x03, 0x80]);
const MOST_SHOWN = 40;
const HEADER = 10;

/**
 * Returns the handle in a successful response.
 * @param {Step} step @param {Answer} answer
 */
function answeredHandle(step, answer) {
  const command = byNumber.get(commandNumber(step.buffer));
  const isAnswered = command && command.answeredHandles.length > 0 && !responseCode(answer.response);
  return isAnswered ? numberOf(answer.response.subarray(HEADER, HEADER + 4)) : null;
}

/**
 * Returns the handles of entities in a command: its handles, those of its entries, and those in its
 * parameters.
 * @param {Step} step
 */
export function handlesIn(step) {
  const command = byNumber.get(commandNumber(step.buffer));
  if (step.kind !== "command" || !command) return [];
  const found = command.handles.map((_, at) => numberOf(step.buffer.subarray(HEADER + 4 * at, HEADER + 4 + 4 * at)));
  found.push(...entryHandles(step.buffer));
  const isTold = command.name === "NV_DefineSpace" || command.parameters.some((it) => it.kind === "handle32");
  if (isTold) {
    for (const it of fieldsOfCommand(step.buffer)) {
      const isHandle = it.size === 4 && (it.name === "nvIndex" || it.name === "flushHandle" || it.name === "persistentHandle");
      if (isHandle && it.sort === "parameter") found.push(numberOf(step.buffer.subarray(it.at, it.at + 4)));
    }
  }
  return found;
}

/** @param {Step} step @param {Answer} answer */
function entitiesOf(step, answer) {
  const answered = answeredHandle(step, answer);
  const all = new Set([...handlesIn(step), ...(answered === null ? [] : [answered])]);
  return [...all].filter((handle) => FIRST_OF_ENTITIES.has(handle >>> 24));
}

/**
 * Returns the steps that use the same entity as this step, from its creation to its end.
 * @param {Step[]} steps @param {Answer[]} answers @param {number} handle @param {number} at
 */
function usesOf(steps, answers, handle, at) {
  let found = [];
  for (let step = 0; step < answers.length; step += 1) {
    const isBegun = answers[step].response.length > 0 && answeredHandle(steps[step], answers[step]) === handle;
    const isEnded = steps[step].kind !== "command" && ENDED_BY_POWER.has(handle >>> 24);
    if ((isBegun || isEnded) && step > at) break;
    if (isBegun || isEnded) found = [];
    if (isBegun || handlesIn(steps[step]).includes(handle)) found.push(step);
  }
  return found;
}

/**
 * Shows the entities that the step uses, and where else the script uses them. The script is
 * searched each time the user opens this part.
 * @param {import("./run.js").Run} run @param {number} at @param {(step: number) => void} go
 */
export function usesShown(run, at, go) {
  const entities = entitiesOf(run.steps[at], run.answers[at]);
  if (!entities.length) return null;
  const inside = make("div", { class: "inside" });
  const names = entities.map((it) => hexNumber(it, 8)).join(", ");
  const found = make("details", { class: "uses" }, make("summary", {}, "Used elsewhere", make("span", { class: "dim" }, names)), inside);
  found.addEventListener("toggle", () => {
    const { steps, answers } = run;
    inside.replaceChildren(...entities.map((it) => usesOfOne(steps, usesOf(steps, answers, it, at), it, at, go)));
  });
  return found;
}

/** @param {Step[]} steps @param {number[]} uses @param {number} handle @param {number} at @param {(step: number) => void} go */
function usesOfOne(steps, uses, handle, at, go) {
  const from = Math.max(0, Math.min(uses.indexOf(at) - MOST_SHOWN / 2, uses.length - MOST_SHOWN));
  const shown = make("p", {}, make("code", {}, hexNumber(handle, 8)), " in lines ");
  for (const step of uses.slice(from, from + MOST_SHOWN)) {
    const line = String(steps[step].line + 1);
    const isHere = step === at;
    shown.append(isHere ? make("b", {}, line) : make("button", { type: "button", class: "as-link", onclick: () => go(step) }, line), " ");
  }
  if (uses.length > MOST_SHOWN) shown.append(`of ${grouped(uses.length)} uses`);
  return shown;
}
