// Draws a policy as the tree of its assertions, and a PCR as the chain of what went into it.

import { areSame, hexNumber, hexOf } from "./bytes.js";
import { heading, make } from "./dom.js";
import { icon } from "./icons.js";
import {
  assertionsOf, commandOf, digestOf, eventWords, fillBranches, handleAt, linksOf, movedPcrs, pcrOf, promiseOf, selectedPcrs, sessionOf,
} from "./policies.js";
import { isBlank } from "./state.js";

/**
 * @typedef {import("./run.js").Run} Run
 * @typedef {import("./device.js").Meaning} Meaning
 * @typedef {import("./policies.js").Assertion} Assertion
 * @typedef {{run: Run, at: number, meaning: Meaning | null, go: (step: number) => void}} Scene a step, and why it was
 *   refused, if it was
 */

const POLICY = 0x03;
const MOST_LINKS = 8;
const MOST_PCRS = 3;
/** The assertion that a refusal with this code is about. */
const GUILTY = new Map([["PCR_CHANGED", "PolicyPCR"], ["POLICY_CC", "PolicyCommandCode"], ["LOCALITY", "PolicyLocality"]]);
/** @type {Record<string, string>} */
const ICONS = {
  PolicyPCR: "pcr", PolicyCommandCode: "command", PolicyCpHash: "command", PolicyLocality: "place", PolicyAuthValue: "key",
  PolicyPassword: "key", PolicySecret: "key", PolicyNV: "memory", PolicyNvWritten: "memory", PolicyOR: "branch",
};

/** @param {Scene} scene @param {number} step */
const lineLink = ({ run, go }, step) => make("button", { type: "button", class: "as-link", onclick: () => go(step) }, `line ${run.steps[step].line + 1}`);

/** @param {string} hex */
const short = (hex) => (isBlank(hex) ? `${hex.slice(0, 2)}..${hex.slice(0, 2)}` : `${hex.slice(0, 8)}…${hex.slice(-8)}`);

/** @param {string} kind @param {string} name @param {...import("./dom.js").Child} parts */
const node = (kind, name, ...parts) => make("li", { class: kind || false }, make("div", { class: "node" }, icon(name), make("p", {}, ...parts)));

/**
 * Returns the pictures of a step.
 * @param {Scene} scene
 */
export function picturesOf(scene) {
  const policy = policyShown(scene);
  return [...chainsShown(scene), ...(policy ? [policy] : [])];
}

/**
 * Draws the policy of the session that a step extends or uses.
 * @param {Scene} scene
 */
function policyShown(scene) {
  const { run, at, meaning } = scene;
  const { buffer } = run.steps[at];
  const session = sessionOf(buffer);
  const isUse = !commandOf(buffer)?.handles.some((it) => it.name === "policySession");
  const count = meaning || isUse ? at : at + 1;
  const digest = session >>> 24 === POLICY ? digestOf(run, count, session) : undefined;
  if (!digest) return null;
  const list = make("ol", { class: "tree" }, node("", "start", make("b", {}, `Session ${hexNumber(session, 8)}`), " starts with zeros"));
  for (const it of assertionsOf(run, count, session)) list.append(assertionShown(scene, it));
  list.append(endShown(scene, digest, isUse ? handleAt(buffer, 0) : 0));
  return make("section", {}, heading("The policy", "each assertion must hold when the session is used"), list);
}

/** @param {Scene} scene @param {Assertion} assertion */
function assertionShown(scene, assertion) {
  const { run, at, meaning } = scene;
  const moved = movedPcrs(run, assertion, at);
  const isBad = moved.length > 0 || GUILTY.get(meaning?.name ?? "") === assertion.name;
  const words = moved.length ? `${assertion.words}, but PCR ${moved.join(", ")} changed since` : assertion.words;
  const found = node(
    isBad ? "bad" : "good", isBad ? "no" : ICONS[assertion.name], make("b", {}, assertion.name), " ", lineLink(scene, assertion.at), " ",
    make("span", { class: "dim" }, words),
  );
  if (!assertion.branches.length) return found;
  fillBranches(run, assertion);
  found.append(make("ol", {}, ...assertion.branches.map((it) => branchShown(scene, it))));
  return found;
}

/** @param {Scene} scene @param {import("./policies.js").Branch} branch */
function branchShown(scene, { digest, isTaken, from }) {
  const words = isTaken ? "the branch above" : from.length ? "" : "another branch";
  const found = node(isTaken ? "good" : "", isTaken ? "yes" : "branch", make("code", { title: hexOf(digest) }, short(hexOf(digest))), " ", make("span", { class: "dim" }, words));
  if (from.length) {
    found.append(make("ol", {}, ...from.map((it) => node("", ICONS[it.name], make("b", {}, it.name), " ", lineLink(scene, it.at), " ", make("span", { class: "dim" }, it.words)))));
  }
  return found;
}

/**
 * Draws the digest to which the assertions lead, and whether it is the policy of the entity that the step uses.
 * @param {Scene} scene @param {Uint8Array} digest @param {number} handle 0: none
 */
function endShown({ run, at }, digest, handle) {
  const { objects, indices } = run.stateAt(at);
  const held = objects.get(handle) ?? indices.find((it) => it.handle === handle);
  const isSame = held ? areSame(held.policy, digest) : null;
  const words = held ? `${isSame ? "is" : "is not"} the authPolicy of ${hexNumber(handle, 8)}` : "is the digest now";
  return node(isSame === null ? "" : isSame ? "good" : "bad", isSame === null ? "lock" : isSame ? "yes" : "no", make("code", { title: hexOf(digest) }, short(hexOf(digest))), " ", make("b", {}, words));
}

/**
 * Draws the PCRs that a step extends, demands, or was refused for.
 * @param {Scene} scene
 */
function chainsShown(scene) {
  const { run, at, meaning } = scene;
  const { buffer } = run.steps[at];
  const own = pcrOf(run, at);
  if (own >= 0 && !meaning) return [chainShown(scene, own, at + 1, null)];
  if (commandOf(buffer)?.name === "PolicyPCR" && !meaning) return selectedPcrs(buffer).slice(0, MOST_PCRS).map((pcr) => chainShown(scene, pcr, at, null));
  if (meaning?.name !== "PCR_CHANGED" && meaning?.name !== "POLICY_FAIL") return [];
  const promise = promiseOf(run, at);
  return promise ? movedPcrs(run, promise, at).slice(0, MOST_PCRS).map((pcr) => chainShown(scene, pcr, at, promise)) : [];
}

/**
 * @param {Scene} scene @param {number} pcr @param {number} count the events until now
 * @param {Assertion | null} promise the assertion that demanded the value of then
 */
function chainShown(scene, pcr, count, promise) {
  const { run } = scene;
  const all = linksOf(run, pcr, count);
  const links = all.slice(-MOST_LINKS);
  const valueAt = (/** @type {number} */ at) => {
    const value = run.stateAt(at).pcrs.get("SHA-256")?.[pcr] ?? "";
    return make("code", { title: value }, short(value));
  };
  const left = all.length - links.length;
  const list = make("ol", { class: "chain" }, make("li", {}, valueAt(links[0] ?? count), " ", make("span", { class: "dim" }, left ? `after ${left} more` : "at the start")));
  const demand = promise && make("li", { class: "promise" }, "PolicyPCR demands this value, ", lineLink(scene, promise.at));
  for (const at of links) {
    const isLate = promise !== null && at > promise.at;
    if (isLate && demand && !demand.parentNode) list.append(demand);
    list.append(make("li", { class: isLate ? "bad" : false }, make("p", {}, `+ ${eventWords(run.steps[at].buffer)} `, lineLink(scene, at)), valueAt(at + 1)));
  }
  if (demand && !demand.parentNode) list.append(demand);
  return make("section", {}, heading(`PCR ${pcr}`, promise ? "changed after the policy demanded its value" : "each value is a hash of the one before and of what went in"), list);
}
