// Finds what a policy session has asserted, and what went into a PCR, from the events of a script.

import { areSame, hexNumber, hexOf, numberOf } from "./bytes.js";
import { byNumber } from "./facts.js";
import { commandNumber, fieldsOfCommand, responseCode } from "./fields.js";
import { entryHandles } from "./reason.js";
import { handleWords, saidBytes } from "./words.js";

/**
 * @typedef {import("./run.js").Run} Run
 * @typedef {{digest: Uint8Array, isTaken: boolean, from: Assertion[]}} Branch the digest of a branch of PolicyOR, and the
 *   assertions by which the script computed it before, if it did
 * @typedef {{at: number, name: string, words: string, pcrs: number[], branches: Branch[]}} Assertion
 */

const HEADER = 10;
const POLICY = 0x03;
/** How many events are searched for assertions, and for the extensions of a PCR. */
const MOST_BACK = 2000;
/** How many earlier assertions are searched for the branches of PolicyOR. */
const MOST_EARLIER = 100;

/** @param {Uint8Array} buffer */
export const commandOf = (buffer) => byNumber.get(commandNumber(buffer));

/** @param {Uint8Array} buffer @param {number} at */
export const handleAt = (buffer, at) => numberOf(buffer.subarray(HEADER + 4 * at, HEADER + 4 + 4 * at));

/** @param {Run} run @param {number} at */
export const isAccepted = (run, at) => run.steps[at].kind === "command" && !responseCode(run.answers[at].response);

/** @param {Uint8Array} buffer @param {string} name */
function fieldOf(buffer, name) {
  const field = fieldsOfCommand(buffer).find((it) => it.name === name);
  return { meaning: field?.meaning ?? "", bytes: field ? buffer.subarray(field.at + field.front, field.at + field.size) : new Uint8Array(0) };
}

/** @param {Uint8Array} buffer */
export function selectedPcrs(buffer) {
  const { bytes } = fieldOf(buffer, "pcrSelect");
  return Array.from({ length: 8 * bytes.length }, (_, pcr) => pcr).filter((pcr) => (bytes[pcr >> 3] >> (pcr & 7)) & 1);
}

/**
 * What each assertion demands, in words.
 * @type {Record<string, (buffer: Uint8Array) => string>}
 */
const DEMANDS = {
  PolicyPCR: (buffer) => `PCR ${selectedPcrs(buffer).join(", ") || "none"} as here`,
  PolicyCommandCode: (buffer) => `the command is ${fieldOf(buffer, "code").meaning || "this one"}`,
  PolicyLocality: (buffer) => `it comes from ${fieldOf(buffer, "locality").meaning.replace(/^localities/, "locality") || "a locality"}`,
  PolicyAuthValue: () => "its HMAC contains the authorization value",
  PolicyPassword: () => "the authorization value is its password",
  PolicySecret: (buffer) => `who asks knows the secret of ${handleWords(handleAt(buffer, 0))}`,
  PolicyNV: (buffer) => `the index ${hexNumber(handleAt(buffer, 1), 8)} compares: ${fieldOf(buffer, "operation").meaning}`,
  PolicyNvWritten: (buffer) => `the index ${numberOf(fieldOf(buffer, "writtenSet").bytes) ? "is written" : "is not written"}`,
  PolicyCpHash: () => "handles and parameters are exactly these",
  PolicyOR: () => "one of these branches",
};

/**
 * Returns the policy session that a command extends, restarts or uses, or 0.
 * @param {Uint8Array} buffer
 */
export function sessionOf(buffer) {
  const command = commandOf(buffer);
  const place = command?.name === "PolicyRestart" ? 0 : command?.handles.findIndex((it) => it.name === "policySession") ?? -1;
  if (place >= 0) return handleAt(buffer, place);
  return entryHandles(buffer).find((it) => it >>> 24 === POLICY) ?? 0;
}

/** @param {Run} run @param {number} count @param {number} session */
export const digestOf = (run, count, session) => run.stateAt(count).sessions.find((it) => it.handle === session)?.digest;

/** @param {Uint8Array | undefined} digest */
const isEmpty = (digest) => !digest || digest.every((it) => it === 0);

/**
 * Returns the assertions of a session after so many events: those that were accepted since it started, or since a
 * command used it.
 * @param {Run} run @param {number} count @param {number} session @returns {Assertion[]}
 */
export function assertionsOf(run, count, session) {
  /** @type {Assertion[]} */
  const found = [];
  for (let at = count - 1; at >= Math.max(0, count - MOST_BACK); at -= 1) {
    const { kind, buffer } = run.steps[at];
    if (kind !== "command") break;
    if (!isAccepted(run, at)) continue;
    const name = commandOf(buffer)?.name ?? "";
    if (name === "StartAuthSession" && handleAt(run.answers[at].response, 0) === session) break;
    const isIts = sessionOf(buffer) === session;
    const isUse = entryHandles(buffer).includes(session) || (isIts && !DEMANDS[name]);
    if (isUse && isEmpty(digestOf(run, at + 1, session))) break;
    if (isIts && DEMANDS[name]) found.unshift(assertionOf(run, at, session, name));
  }
  return found;
}

/** @param {Run} run @param {number} at @param {number} session @param {string} name @returns {Assertion} */
function assertionOf(run, at, session, name) {
  const { buffer } = run.steps[at];
  const isBranched = name === "PolicyOR";
  return {
    at, name, words: DEMANDS[name](buffer), pcrs: name === "PolicyPCR" ? selectedPcrs(buffer) : [],
    branches: isBranched ? branchesOf(buffer, digestOf(run, at, session)) : [],
  };
}

/** @param {Uint8Array} buffer @param {Uint8Array | undefined} digest @returns {Branch[]} */
function branchesOf(buffer, digest) {
  const those = fieldsOfCommand(buffer).filter((it) => it.sort === "parameter" && it.front === 2 && !it.isGroup);
  const digests = those.map((it) => buffer.subarray(it.at + 2, it.at + it.size));
  const taken = digests.findIndex((it) => digest && areSame(it, digest));
  return digests.map((it, at) => ({ digest: it, isTaken: at === taken, from: [] }));
}

/**
 * Finds how the script computed the branches of PolicyOR that were not taken: the assertions after which some session
 * had that digest.
 * @param {Run} run @param {Assertion} assertion
 */
export function fillBranches(run, { at, branches }) {
  const left = new Map(branches.filter((it) => !it.isTaken).map((it) => [hexOf(it.digest), it]));
  let looked = 0;
  for (let before = at - 1; before >= 0 && left.size && looked < MOST_EARLIER; before -= 1) {
    const { buffer } = run.steps[before];
    if (!DEMANDS[commandOf(buffer)?.name ?? ""] || !isAccepted(run, before)) continue;
    looked += 1;
    const session = sessionOf(buffer);
    const digest = hexOf(digestOf(run, before + 1, session) ?? new Uint8Array(0));
    const branch = left.get(digest);
    if (branch) branch.from = assertionsOf(run, before + 1, session);
    left.delete(digest);
  }
}

/**
 * Returns the PCRs of an assertion whose values have changed since.
 * @param {Run} run @param {Assertion} assertion @param {number} count
 */
export function movedPcrs(run, { at, pcrs }, count) {
  const [then, now] = [run.stateAt(at + 1).pcrs, run.stateAt(count).pcrs];
  return pcrs.filter((pcr) => [...then].some(([bank, values]) => values[pcr] !== now.get(bank)?.[pcr]));
}

/**
 * Returns the last PolicyPCR of the session that a command uses, if the PCRs were demanded.
 * @param {Run} run @param {number} at
 */
export const promiseOf = (run, at) => assertionsOf(run, at, sessionOf(run.steps[at].buffer)).filter((it) => it.pcrs.length).at(-1);

// A PCR.

const OF_PCR = new Set(["PCR_Event", "PCR_Extend", "PCR_Reset"]);

/**
 * Returns the PCR that a command extends or resets, or -1.
 * @param {Run} run @param {number} at
 */
export function pcrOf(run, at) {
  const { kind, buffer } = run.steps[at];
  return kind === "command" && OF_PCR.has(commandOf(buffer)?.name ?? "") ? handleAt(buffer, 0) : -1;
}

/**
 * Returns the events that extended or reset a PCR since the device started.
 * @param {Run} run @param {number} pcr @param {number} count
 */
export function linksOf(run, pcr, count) {
  const found = [];
  for (let at = count - 1; at >= Math.max(0, count - MOST_BACK); at -= 1) {
    const { kind, buffer } = run.steps[at];
    if (kind !== "command" || (commandOf(buffer)?.name === "Startup" && isAccepted(run, at))) break;
    if (pcrOf(run, at) === pcr && isAccepted(run, at)) found.unshift(at);
  }
  return found;
}

/**
 * Says what went into a PCR.
 * @param {Uint8Array} buffer
 */
export function eventWords(buffer) {
  const name = commandOf(buffer)?.name;
  if (name === "PCR_Reset") return "reset";
  if (name === "PCR_Event") return saidBytes(fieldOf(buffer, "eventData").bytes);
  const digest = hexOf(fieldOf(buffer, "digest").bytes);
  return digest ? `digest ${digest.slice(0, 8)}…` : "extended";
}
