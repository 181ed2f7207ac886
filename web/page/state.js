// Reads the state of a device from its state text (docs/table/state_text.md), which contains the
// whole state. Reading it changes nothing.

import { hexNumber, hexOf, Reader } from "./bytes.js";
import { facts } from "./facts.js";
import {
  algorithmWords, bitWords, bytesWords, commandWords, grouped, handleWords, localitiesWords,
  nvFlagWords, nvTypeWords, secondsWords,
} from "./words.js";

/**
 * @typedef {{hierarchy: number, type: number, attributes: number, policy: Uint8Array, auth: Uint8Array}} Held
 * @typedef {{
 *   handle: number, type: number, hash: number, algorithm: number, cipher: string, nonce: Uint8Array, key: Uint8Array,
 *   binding: Uint8Array | null, digest: Uint8Array, counter: bigint | null, code: number | null,
 *   cpHash: Uint8Array | null, isWritten: number | null, localities: number, demand: number,
 * }} Session
 * @typedef {{
 *   handle: number, attributes: number, policy: Uint8Array, size: number, auth: Uint8Array,
 *   data: Uint8Array,
 * }} Index
 * @typedef {{
 *   auths: Map<string, Uint8Array>, isClearDisabled: boolean, failedTries: number, maxTries: number,
 *   recoveryTime: number, lockoutRecovery: number, isClosed: boolean, clock: bigint,
 *   resetCount: number, restartCount: number, saved: number, objects: Map<number, Held>,
 *   indices: Index[], isStarted: boolean, pcrs: Map<string, string[]>, updateCounter: bigint,
 *   time: bigint, sessions: Session[], groups: Map<string, Group>,
 * }} State
 * @typedef {Map<string, Map<string, string>>} Group the values of each entity, by their names
 */

const HEAD_BYTES = 4 + 2 + 4 + 6;
const SECRET_BYTES = 64;
const HIERARCHIES = ["OWNER", "ENDORSEMENT", "PLATFORM"];
const BANKS = [{ name: "SHA-1", size: 20 }, { name: "SHA-256", size: 32 }];
const SAVED_PCRS = 16;
const PLACE_COUNTS = { sessions: 16, objects: 8 };
const FIRST_HANDLES = { hmac: 0x02000000, policy: 0x03000000, object: 0x80000000 };
const CIPHERS = { aes: 6, xor: 10, none: 16 };
const ALL_LOCALITIES = 31;
const SAVED_WORDS = ["nothing", "Shutdown(CLEAR)", "Shutdown(STATE)"];
const DEMANDS = ["", "the authorization value, in an HMAC", "the authorization value, as a password"];

/** The groups of a device, in the order in which they are shown. */
export const GROUPS = ["PCRs", "Sessions", "Objects", "NV indices", "Hierarchies", "Lockout", "Clock"];

/** @param {Uint8Array} text @returns {State} */
export function readState(text) {
  const reader = new Reader(text, HEAD_BYTES);
  const state = /** @type {State} */ (/** @type {any} */ ({ objects: new Map(), auths: new Map() }));
  readKept(reader, state);
  state.isStarted = reader.number(1) === 1;
  state.pcrs = new Map(BANKS.map(({ name, size }) => [name, values(reader, facts.pcrs, size)]));
  state.updateCounter = reader.big(8);
  state.time = reader.big(8);
  reader.take(16);
  state.sessions = [];
  for (let place = 0; place < PLACE_COUNTS.sessions; place += 1) {
    const session = reader.optional(() => readSession(reader, place));
    if (session) state.sessions.push(session);
  }
  for (let place = 0; place < PLACE_COUNTS.objects; place += 1) {
    const held = reader.optional(() => readObject(reader));
    if (held) state.objects.set(FIRST_HANDLES.object + place, held);
  }
  state.groups = groupsOf(state);
  return state;
}

/**
 * Reads the part of the state that a device keeps while it has no power.
 * @param {Reader} reader @param {State} state
 */
function readKept(reader, state) {
  for (const name of HIERARCHIES) {
    state.auths.set(name, reader.sized());
    reader.take(SECRET_BYTES);
  }
  reader.sized();
  reader.take(SECRET_BYTES);
  state.auths.set("LOCKOUT", reader.sized());
  state.isClearDisabled = reader.number(1) === 1;
  state.failedTries = reader.number(4);
  state.maxTries = reader.number(4);
  state.recoveryTime = reader.number(4);
  state.lockoutRecovery = reader.number(4);
  state.isClosed = reader.number(1) === 1;
  state.clock = reader.big(8);
  state.resetCount = reader.number(4);
  state.restartCount = reader.number(4);
  reader.take(8);
  state.saved = reader.number(1);
  if (state.saved === 2) for (const { size } of BANKS) reader.take(SAVED_PCRS * size);
  for (let left = reader.number(2); left > 0; left -= 1) {
    const handle = reader.number(4);
    state.objects.set(handle, readObject(reader));
  }
  state.indices = Array.from({ length: reader.number(2) }, () => readIndex(reader));
}

/** @param {Reader} reader @param {number} count @param {number} size */
const values = (reader, count, size) =>
  Array.from({ length: count }, () => hexOf(reader.take(size)));

/** @param {Reader} reader @returns {Held} */
function readObject(reader) {
  const hierarchy = reader.number(4);
  reader.sized();
  const area = new Reader(reader.sized());
  const type = area.number(2);
  area.number(2);
  const attributes = area.number(4);
  const policy = area.sized();
  const sensitive = new Reader(reader.sized(), 2);
  return { hierarchy, type, attributes, policy, auth: sensitive.sized() };
}

/** @param {Reader} reader @returns {Index} */
function readIndex(reader) {
  const area = new Reader(reader.sized());
  const handle = area.number(4);
  area.number(2);
  const attributes = area.number(4);
  const policy = area.sized();
  return { handle, attributes, policy, size: area.number(2), auth: reader.sized(), data: reader.sized() };
}

/** @param {Reader} reader */
function readCipher(reader) {
  const algorithm = reader.number(2);
  if (algorithm === CIPHERS.none) return { algorithm, cipher: "none" };
  if (algorithm === CIPHERS.xor) return { algorithm, cipher: `XOR, masks of ${algorithmWords(reader.number(2))}` };
  return { algorithm, cipher: `${algorithmWords(algorithm)}-${reader.number(2)} ${algorithmWords(reader.number(2))}` };
}

/** @param {Reader} reader @param {number} place @returns {Session} */
function readSession(reader, place) {
  const type = reader.number(1);
  const hash = reader.number(2);
  const { algorithm, cipher } = readCipher(reader);
  const nonce = reader.sized();
  const key = reader.sized();
  const binding = reader.optional(() => {
    const name = reader.sized();
    reader.sized();
    reader.number(1);
    return name;
  });
  return {
    handle: (type === 0 ? FIRST_HANDLES.hmac : FIRST_HANDLES.policy) + place, type, hash, algorithm, cipher, nonce, key,
    binding, digest: reader.sized(), counter: reader.optional(() => reader.big(8)),
    code: reader.optional(() => reader.number(4)), cpHash: reader.optional(() => reader.sized()),
    isWritten: reader.optional(() => reader.number(1)), localities: reader.number(1),
    demand: reader.number(1),
  };
}

// The values of a device, as text.

/** @param {Iterable<[string, string | null]>} pairs @returns {Map<string, string>} */
const present = (pairs) => {
  const found = new Map();
  for (const [name, text] of pairs) if (text !== null && text !== "") found.set(name, text);
  return found;
};

/** @param {State} state @returns {Map<string, Group>} */
function groupsOf(state) {
  return new Map([
    ["PCRs", state.isStarted ? pcrGroup(state) : new Map()],
    ["Sessions", new Map(state.sessions.map((it) => [hexNumber(it.handle, 8), sessionValues(it)]))],
    ["Objects", objectGroup(state)],
    ["NV indices", new Map(state.indices.map((it) => [hexNumber(it.handle, 8), indexValues(it)]))],
    ["Hierarchies", hierarchyGroup(state)],
    ["Lockout", new Map([["", lockoutValues(state)]])],
    ["Clock", new Map([["", clockValues(state)]])],
  ]);
}

/** @param {State} state @returns {Group} */
function pcrGroup(state) {
  const found = new Map();
  for (let pcr = 0; pcr < facts.pcrs; pcr += 1) {
    const pairs = [...state.pcrs].map(([bank, all]) => /** @type {[string, string]} */ ([bank, all[pcr]]));
    found.set(`PCR ${pcr}`, new Map(pairs));
  }
  return found.set("", new Map([["update counter", grouped(state.updateCounter)]]));
}

/** @param {Session} session */
function sessionValues(session) {
  const isHmac = session.type === 0;
  return present([
    ["kind", facts.sessions[session.type]],
    ["hash", algorithmWords(session.hash)],
    ["encrypts by", session.cipher],
    ["nonceTPM", hexOf(session.nonce)],
    ["session key", hexOf(session.key) || "empty"],
    ["bound to the Name", session.binding && hexOf(session.binding)],
    ["policy digest", isHmac ? null : hexOf(session.digest)],
    ["command", session.code === null ? null : commandWords(session.code)],
    ["cpHash", session.cpHash && hexOf(session.cpHash)],
    ["index", session.isWritten === null ? null : session.isWritten ? "must be written" : "must not be written"],
    ["localities", session.localities === ALL_LOCALITIES ? null : localitiesWords(session.localities)],
    ["update counter", session.counter === null ? null : `${grouped(session.counter)}, at TPM2_PolicyPCR`],
    ["demands", DEMANDS[session.demand]],
  ]);
}

/** @param {State} state @returns {Group} */
function objectGroup(state) {
  const found = new Map();
  for (const [handle, held] of [...state.objects].sort(([one], [other]) => one - other)) {
    found.set(hexNumber(handle, 8), present([
      ["type", algorithmWords(held.type)],
      ["hierarchy", handleWords(held.hierarchy)],
      ["attributes", bitWords(held.attributes, facts.objectFlags)],
      ["authValue", bytesWords(held.auth)],
      ["authPolicy", hexOf(held.policy) || "empty"],
    ]));
  }
  return found;
}

/** @param {Index} index */
function indexValues(index) {
  return present([
    ["type", nvTypeWords(index.attributes)],
    ["attributes", nvFlagWords(index.attributes)],
    ["authValue", bytesWords(index.auth)],
    ["authPolicy", hexOf(index.policy) || "empty"],
    ["size", `${grouped(index.size)} bytes`],
    ["data", index.data.length ? bytesWords(index.data) : "not written"],
  ]);
}

/** @param {State} state @returns {Group} */
function hierarchyGroup(state) {
  /** @type {Group} */
  const found = new Map();
  for (const [name, auth] of state.auths) found.set(name, new Map([["authValue", bytesWords(auth)]]));
  return found.set("TPM2_Clear", new Map([["disabled", state.isClearDisabled ? "yes" : "no"]]));
}

/** @param {State} state */
function lockoutValues(state) {
  return present([
    ["failed tries", `${grouped(state.failedTries)} of ${grouped(state.maxTries)}`],
    ["one is forgiven after", `${grouped(state.recoveryTime)} s`],
    ["lockoutAuth closes for", `${grouped(state.lockoutRecovery)} s`],
    ["lockoutAuth", state.isClosed ? "closed" : "open"],
  ]);
}

/** @param {State} state */
function clockValues(state) {
  return present([
    ["started", state.isStarted ? "yes" : "no: it waits for TPM2_Startup"],
    ["Time", secondsWords(state.time)],
    ["Clock", secondsWords(state.clock)],
    ["resetCount", grouped(state.resetCount)],
    ["restartCount", grouped(state.restartCount)],
    ["saved", SAVED_WORDS[state.saved] ?? ""],
  ]);
}

// The differences between two states.

/** @typedef {{group: string, entity: string, name: string, before: string | null, after: string | null}} Change */

/** The values that change with each command because time passes. */
const QUIET = new Set(["Time", "Clock"]);

/** @param {State} before @param {State} after @returns {Change[]} */
export function changesOf(before, after) {
  if (before === after) return [];
  const found = [];
  for (const group of GROUPS) {
    const old = before.groups.get(group) ?? new Map();
    const now = after.groups.get(group) ?? new Map();
    for (const entity of new Set([...old.keys(), ...now.keys()])) {
      for (const it of valueChanges(old.get(entity), now.get(entity))) found.push({ group, entity, ...it });
    }
  }
  return found;
}

/** @param {Map<string, string>} [old] @param {Map<string, string>} [now] */
function valueChanges(old = new Map(), now = new Map()) {
  const found = [];
  for (const name of new Set([...old.keys(), ...now.keys()])) {
    const before = old.get(name) ?? null;
    const after = now.get(name) ?? null;
    if (before !== after && !QUIET.has(name)) found.push({ name, before, after });
  }
  return found;
}

/**
 * Returns whether all bytes of a value are 00, or all are ff.
 * @param {string} hex
 */
export const isBlank = (hex) => /^(?:(?:00)*|(?:ff)*)$/.test(hex);

/**
 * Returns the device's handles with this first byte.
 * @param {State} state @param {number} first
 */
export function handlesOf(state, first) {
  const all = [...state.objects.keys(), ...state.sessions.map((it) => it.handle), ...state.indices.map((it) => it.handle)];
  return all.filter((handle) => handle >>> 24 === first).sort((one, other) => one - other);
}

export const NO_BYTES = new Uint8Array(0);
