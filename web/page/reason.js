// Explains why a command was refused: the rules of the check that refused it, and the values that
// the rule compares.

import { areSame, hexOf, numberOf, Reader } from "./bytes.js";
import { byNumber, facts } from "./facts.js";
import { commandNumber, fieldsOfCommand, WITH_ENTRIES } from "./fields.js";
import { NO_BYTES } from "./state.js";
import { bytesWords, commandWords, grouped, handleWords, localitiesWords, nvFlagWords, PASSWORD_HANDLE } from "./words.js";

/**
 * @typedef {import("./device.js").Meaning} Meaning
 * @typedef {import("./script.js").Step} Step
 * @typedef {import("./state.js").State} State
 * @typedef {{sentence: string, link: string}} Rule
 * @typedef {{nonce: Uint8Array, attributes: number, secret: Uint8Array}} Part of an entry of a command or of
 *   a response
 * @typedef {Part & {handle: number, isPassword: boolean}} Entry
 */

const HEADER = 10;
const HANDLE = 4;
const LEAST_ENTRY = 9;
const LEAST_ANSWER = 5;

/** @param {string} key */
const isRule = (key) => key in facts.rules;

/**
 * Returns the keys of the rules that may be the reason why a check refused.
 * @param {string} check @param {string} command @param {Meaning | null} meaning
 */
function ruleKeys(check, command, meaning) {
  const name = meaning?.name ?? "";
  if (check.startsWith("A")) return [`${command}/${check}`];
  const found = Object.keys(facts.rules).filter(
    (key) => key === check || key === `${check}/${name}` || key.startsWith(`${check}/${name}.`),
  );
  if (check === "G9") found.push(...conditionKeys(name));
  if (check === "G11" && !found.length) found.push(`${command}/parameters`);
  return found;
}

/**
 * Returns the keys of the policy conditions that may be the reason for a refusal with this code.
 * @param {string} name
 */
const conditionKeys = (name) =>
  Object.keys(facts.rules).filter((key) => key.startsWith("condition/") && new RegExp(`\\b${name}\\b`).test(facts.rules[key][0]));

/**
 * Returns the rules by which a check refused a command.
 * @param {string} check @param {Uint8Array} buffer @param {Meaning | null} meaning @param {State} before
 * @returns {Rule[]}
 */
export function rulesOf(check, buffer, meaning, before) {
  const command = byNumber.get(commandNumber(buffer))?.name ?? "";
  let keys = ruleKeys(check, command, meaning).filter(isRule);
  if (meaning?.name === "POLICY_FAIL") keys = [`condition/${failedCondition(buffer, meaning, before)}`];
  return keys.map((key) => ({ sentence: sentenceOf(facts.rules[key][0], buffer, meaning, before), link: facts.rules[key][1] }));
}

/**
 * Returns the label and the sentence of each row of the table for a check. If the check is one of the
 * command's own, these are the rows of all the command's own checks.
 * @param {string} check @param {Uint8Array} buffer
 * @returns {[string, string][]}
 */
export function rowsOf(check, buffer) {
  const command = byNumber.get(commandNumber(buffer))?.name ?? "";
  const front = check.startsWith("A") ? `${command}/A` : `${check}/`;
  const keys = Object.keys(facts.rules).filter((key) => key === check || key.startsWith(front));
  return keys.map((key) => [key.split("/").at(-1)?.replace(/\.\d+$/, "") ?? "", facts.rules[key][0]]);
}

/**
 * Returns whether a response code reports an entry with a wrong password or HMAC.
 * @param {Meaning | null} meaning
 */
export const isWrongEntry = (meaning) => meaning !== null && ["AUTH_FAIL", "BAD_AUTH"].includes(meaning.name);

/**
 * Returns the sentence of a rule with the number of the entry. If the password or HMAC of the entry was
 * wrong, the sentence states only the case that happened.
 * @param {string} rule @param {Uint8Array} buffer @param {Meaning | null} meaning @param {State} before
 */
function sentenceOf(rule, buffer, meaning, before) {
  const isOnlyOne = entriesOf(buffer).length === 1;
  const place = meaning?.kind === "session" ? meaning.number : isOnlyOne ? 1 : 0;
  const sentence = rule.replace(/\bEntry N\b/, place ? `Entry ${place}` : "An entry");
  const isCase = isWrongEntry(meaning) && place && sentence !== rule;
  return isCase ? `${sentence.split(". ")[0].replace(" otherwise", "")}: ${wrongCase(useOf(buffer, place, before))}` : sentence;
}

/** @param {Use} use */
function wrongCase({ entry, session }) {
  if (entry?.isPassword) return "its password, without trailing zeros, is not the handle's authorization value.";
  return session?.type ? "its hmac is not what its policy session demands." : "its hmac is not the one that it must be.";
}

/** @param {Uint8Array} buffer @param {Meaning} meaning @param {State} before */
function failedCondition(buffer, meaning, before) {
  const use = useOf(buffer, meaning.number, before);
  if (!use.session) return 8;
  const command = byNumber.get(commandNumber(buffer));
  if (command?.name === "NV_ChangeAuth" && use.session.code === null) return 5;
  if (use.policy && hexOf(use.policy) !== hexOf(use.session.digest)) {
    return use.session.cpHash || use.session.isWritten !== null ? whichBefore(use.session, use.index) : 8;
  }
  return use.session.isWritten === null ? 5 : whichBefore(use.session, use.index);
}

const WRITTEN = 1 << 29;

/**
 * Returns 6 if the session requires the index to be written, or to be unwritten, and the index does not meet this
 * requirement. Otherwise returns 8, because policy conditions 5 and 6 are checked before condition 8.
 * @param {import("./state.js").Session} session
 * @param {import("./state.js").Index | undefined} index
 */
function whichBefore(session, index) {
  if (session.isWritten === null) return 8;
  const isWritten = index ? Number((index.attributes & WRITTEN) !== 0) : -1;
  return isWritten === session.isWritten ? 8 : 6;
}

/**
 * Returns the entries of a command.
 * @param {Uint8Array} buffer @returns {Entry[]}
 */
export function entriesOf(buffer) {
  const command = byNumber.get(commandNumber(buffer));
  if (!command || numberOf(buffer.subarray(0, 2)) !== WITH_ENTRIES) return [];
  const reader = new Reader(buffer, HEADER + HANDLE * command.handles.length);
  const size = reader.number(4);
  const end = Math.min(buffer.length, reader.at + size);
  const found = [];
  while (reader.at + LEAST_ENTRY <= end) {
    const handle = reader.number(HANDLE);
    found.push({ handle, isPassword: handle === PASSWORD_HANDLE, ...partOf(reader) });
  }
  return found;
}

/** @param {Reader} reader @returns {Part} */
const partOf = (reader) => ({ nonce: reader.sized(), attributes: reader.number(1), secret: reader.sized() });

/**
 * Returns the parts of a successful response that belong to the entries of its command.
 * @param {import("./facts.js").CommandFact} command @param {Uint8Array} response @returns {Part[]}
 */
export function answersOf(command, response) {
  if (numberOf(response.subarray(0, 2)) !== WITH_ENTRIES) return [];
  const reader = new Reader(response, HEADER + HANDLE * command.answeredHandles.length);
  reader.take(reader.number(4));
  const found = [];
  while (reader.left >= LEAST_ANSWER) found.push(partOf(reader));
  return found;
}

/**
 * Returns the session handles of a command's entries.
 * @param {Uint8Array} buffer
 */
export const entryHandles = (buffer) => entriesOf(buffer).map((it) => it.handle);

/** @param {Uint8Array} buffer @param {number} at from 0 */
const handleAt = (buffer, at) => numberOf(buffer.subarray(HEADER + HANDLE * at, HEADER + HANDLE * (at + 1)));

/**
 * Returns the authorization value of an entity of the device; empty for a PCR.
 * @param {number} handle @param {State} state
 */
export function authOf(handle, state) {
  const index = state.indices.find((it) => it.handle === handle);
  const held = index ?? state.objects.get(handle);
  return held?.auth ?? (handle < facts.pcrs ? NO_BYTES : state.auths.get(handleWords(handle)));
}

/**
 * Returns an entry, the entity that it authorizes, and its session.
 * @param {Uint8Array} buffer @param {number} place from 1 @param {State} before
 */
function useOf(buffer, place, before) {
  const entry = entriesOf(buffer)[place - 1];
  const handle = handleAt(buffer, place - 1);
  const index = before.indices.find((it) => it.handle === handle);
  const nvIndex = byNumber.get(commandNumber(buffer))?.handles.findIndex((it) => it.name === "nvIndex") ?? -1;
  const held = before.objects.get(handle);
  return {
    entry, handle, index, auth: authOf(handle, before), policy: index?.policy ?? held?.policy,
    used: before.indices.find((it) => nvIndex >= 0 && it.handle === handleAt(buffer, nvIndex)),
    session: before.sessions.find((it) => it.handle === entry?.handle),
  };
}

/**
 * Returns the values that a refusal is about, each with a label.
 * @param {Step} step @param {Meaning | null} meaning @param {State} before
 * @returns {[string, string][]}
 */
export function valuesOf(step, meaning, before) {
  if (!meaning) return [];
  const place = meaning.kind === "session" ? meaning.number : 1;
  const use = useOf(step.buffer, place, before);
  const of = handleWords(use.handle);
  switch (meaning.name) {
    case "AUTH_FAIL": case "BAD_AUTH": return authValues(use, of);
    case "POLICY_FAIL": return policyValues(use, of);
    case "LOCKOUT": return [["failed tries", `${grouped(before.failedTries)} of ${grouped(before.maxTries)}`], ["lockoutAuth", before.isClosed ? "closed" : "open"]];
    case "PCR_CHANGED": return counterValues(use, before);
    case "POLICY_CC": return codeValues(use, step);
    case "LOCALITY": return localityValues(use, step);
    case "NV_RANGE": return use.used ? [["size of the index", `${grouped(use.used.size)} bytes`]] : [];
    case "NV_AUTHORIZATION": case "NV_LOCKED": case "NV_UNINITIALIZED": return indexValues(use, step, meaning.name);
    default: return [];
  }
}

/**
 * Returns the two values that were compared, if the refusal is about two values of the same kind.
 * @param {Step} step @param {Meaning | null} meaning @param {State} before
 * @returns {import("./values_view.js").Pair | null}
 */
export function pairOf({ buffer }, meaning, before) {
  if (!meaning) return null;
  if (meaning.name === "TYPE" && meaning.kind === "parameter") return typePair(buffer, meaning.number);
  const { entry, auth, session, policy, handle } = useOf(buffer, meaning.kind === "session" ? meaning.number : 1, before);
  const of = handleWords(handle);
  if (isWrongEntry(meaning) && entry?.isPassword && auth) {
    return { given: { label: "password given", bytes: entry.secret }, wanted: [{ label: `authValue of ${of}`, bytes: auth }], said: `The password is not that of ${of}.` };
  }
  if (meaning.name !== "POLICY_FAIL" || !session || !policy || areSame(session.digest, policy)) return null;
  return { given: { label: "policy digest had", bytes: session.digest }, wanted: [{ label: `authPolicy of ${of}`, bytes: policy }], said: `The session has not fulfilled the policy of ${of}.` };
}

/** The types of keys and sealed data that the device has: SYMCIPHER and KEYEDHASH. */
const SERVED_TYPES = [0x25, 0x08];
/** @type {Record<number, string>} */
const OTHER_TYPES = { 0x01: "RSA", 0x23: "ECC" };

/**
 * Returns the field that contains the type of the public area in a parameter.
 * @param {import("./fields.js").Field[]} fields @param {number} place
 */
export function typeField(fields, place) {
  const area = fields.filter((it) => it.sort === "parameter" && it.depth === 0)[place - 1];
  return fields.find((it) => it.name === "type" && area && it.at >= area.at && it.at < area.at + area.size) ?? null;
}

/** @param {Uint8Array} buffer @param {number} place @returns {import("./values_view.js").Pair | null} */
function typePair(buffer, place) {
  const field = typeField(fieldsOfCommand(buffer), place);
  if (!field) return null;
  const bytes = buffer.subarray(field.at, field.at + field.size);
  const name = facts.algorithms[numberOf(bytes)] ?? OTHER_TYPES[numberOf(bytes)] ?? "";
  const wanted = SERVED_TYPES.map((it) => ({ label: "type that the device has", bytes: Uint8Array.of(it >> 8, it & 0xff), words: facts.algorithms[it] }));
  const said = name in facts.algorithms || !name ? "This type is not one of a key or of sealed data here." : `This TPM has no ${name} keys: its keys are symmetric.`;
  return { given: { label: "type given", bytes, words: name }, wanted, said };
}

/** @typedef {ReturnType<typeof useOf>} Use */

/** @param {Use} use @param {string} of @returns {[string, string][]} */
function authValues({ entry, auth }, of) {
  if (!entry || !auth) return [];
  const given = entry.isPassword ? "password given" : "HMAC given";
  return [[given, bytesWords(entry.secret)], [`authValue of ${of}`, bytesWords(auth)]];
}

/** @param {Use} use @param {string} of @returns {[string, string][]} */
function policyValues({ session, policy }, of) {
  if (!session || !policy) return [];
  return [["policy digest had", hexOf(session.digest)], [`authPolicy of ${of}`, hexOf(policy) || "empty"]];
}

/** @param {Use} use @param {State} before @returns {[string, string][]} */
function counterValues({ session }, before) {
  if (!session || session.counter === null) return [];
  return [["update counter now", grouped(before.updateCounter)], ["at TPM2_PolicyPCR", grouped(session.counter)]];
}

const READERS = new Set(["NV_Read", "NV_ReadLock", "PolicyNV"]);

/**
 * Returns the attributes of an index, and the attribute that would let the handle use it.
 * @param {Use} use @param {Step} step @param {string} name @returns {[string, string][]}
 */
function indexValues({ used, handle }, step, name) {
  if (!used) return [];
  /** @type {[string, string][]} */
  const found = [["attributes of the index", nvFlagWords(used.attributes)]];
  const command = commandWords(commandNumber(step.buffer));
  if (name !== "NV_AUTHORIZATION" || command === "NV_UndefineSpace") return found;
  const kind = READERS.has(command) ? "READ" : "WRITE";
  const front = handleWords(handle) === "OWNER" ? "OWNER" : handleWords(handle) === "PLATFORM" ? "PP" : "";
  const wanted = front ? `${front}${kind}` : `AUTH${kind} by a password or an HMAC session, POLICY${kind} by a policy session`;
  return [...found, [`${handleWords(handle)} needs`, wanted]];
}

/** @param {Use} use @param {Step} step @returns {[string, string][]} */
function codeValues({ session }, step) {
  if (!session || session.code === null) return [];
  return [["command given", commandWords(commandNumber(step.buffer))], ["the policy allows", commandWords(session.code)]];
}

/** @param {Use} use @param {Step} step @returns {[string, string][]} */
function localityValues({ session }, step) {
  if (!session) return [];
  return [["locality", String(step.locality)], ["the policy allows", localitiesWords(session.localities)]];
}
