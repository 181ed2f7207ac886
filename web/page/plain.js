// Decrypts the parameters that a session encrypted. The keys are computed from the script: from its
// nonces, its responses, and the authorization values that it sets (TPM 2.0 Library, Part 1, 19 and
// 21).

import { cfbDecrypted } from "./aes.js";
import { bytesOf, hexNumber, joined, numberOf } from "./bytes.js";
import { HASHES, kdfa } from "./digests.js";
import { byNumber } from "./facts.js";
import { commandNumber, fieldsOfCommand, fieldsOfResponse, responseCode } from "./fields.js";
import { answersOf, authOf, entriesOf } from "./reason.js";
import { handleWords, PASSWORD_HANDLE } from "./words.js";

/**
 * @typedef {import("./run.js").Run} Run
 * @typedef {import("./digests.js").Hash} Hash
 * @typedef {{algorithm: number, keyBytes: number}} Cipher
 * @typedef {{hash: Hash, cipher: Cipher, key: Uint8Array, nonce: Uint8Array}} Session
 * @typedef {{session: number, reason: string, bytes: Uint8Array, from: number, to: number}} Plain the whole
 *   buffer with its bytes from `from` to `to` decrypted, or the reason why nothing is decrypted
 */

const START = "StartAuthSession";
const DECRYPT = 0x20;
const ENCRYPT = 0x40;
const NULL_HANDLE = 0x40000007;
const AES = 6;
const XOR = 10;
const AES_BLOCK = 16;
const HEADER = 10;
const SIZE = 4;
const MOST_STARTS = 16;
const EMPTY = new Uint8Array(0);
const WHOLE_ANSWER = /^(?:8001|8002|00c4)[0-9a-f]{16,}$/;

/**
 * The commands that set an authorization value, and the names of their fields for the entity and for the
 * value.
 * @type {Record<string, {handle: string, value: string}>}
 */
const SETTERS = {
  HierarchyChangeAuth: { handle: "authHandle", value: "newAuth" }, NV_ChangeAuth: { handle: "nvIndex", value: "newAuth" },
  NV_DefineSpace: { handle: "nvIndex", value: "auth" },
};

/** The reason why a parameter is not decrypted, in words. */
class Unknown extends Error {}

/** @param {boolean} holds @param {string} words */
function need(holds, words) {
  if (!holds) throw new Unknown(words);
}

/**
 * Returns the script's recorded response to an event, or else the device's response.
 * @param {Run} run @param {number} at
 */
export function responseOf(run, at) {
  const given = run.steps[at].answers.find((it) => WHOLE_ANSWER.test(it));
  return given ? bytesOf(given) : run.answers[at].response;
}

/**
 * Returns a command with its first parameter decrypted; null if that parameter is not encrypted.
 * @param {Run} run @param {number} at
 */
export const plainCommand = (run, at) => new Decryption(run, 0).command(at);

/**
 * Returns the response to a command, with the response's first parameter decrypted; null if that parameter is not
 * encrypted.
 * @param {Run} run @param {number} at
 */
export const plainResponse = (run, at) => new Decryption(run, 0).response(at);

class Decryption {
  /**
   * @param {Run} run @param {number} starts the number of nested session starts
   * @param {Map<number, Session>} known the sessions that were computed already, by the step that starts them
   */
  constructor(run, starts, known = new Map()) {
    this.run = run;
    this.starts = starts;
    this.known = known;
  }

  /** @param {number} at @returns {Plain | null} */
  command(at) {
    const { buffer } = this.run.steps[at];
    const command = byNumber.get(commandNumber(buffer));
    const entries = entriesOf(buffer);
    const place = entries.findIndex((it) => it.handle !== PASSWORD_HANDLE && it.attributes & DECRYPT);
    if (!command || place < 0) return null;
    const front = HEADER + SIZE * command.handles.length;
    const first = front + SIZE + numberOf(buffer.subarray(front, front + SIZE));
    return this.#decrypted(at, place, buffer, first, command.parameters[0], (session) => [entries[place].nonce, session.nonce]);
  }

  /** @param {number} at @returns {Plain | null} */
  response(at) {
    const { buffer } = this.run.steps[at];
    const response = responseOf(this.run, at);
    const command = byNumber.get(commandNumber(buffer));
    const entries = entriesOf(buffer);
    const place = entries.findIndex((it) => it.handle !== PASSWORD_HANDLE && it.attributes & ENCRYPT);
    if (!command || place < 0 || responseCode(response)) return null;
    const first = HEADER + SIZE * command.answeredHandles.length + SIZE;
    const nonce = answersOf(command, response)[place]?.nonce ?? EMPTY;
    return this.#decrypted(at, place, response, first, command.answeredParameters[0], () => [nonce, entries[place].nonce]);
  }

  /**
   * @param {number} at @param {number} place of the entry, from 0 @param {Uint8Array} buffer
   * @param {number} first where the first parameter is @param {import("./facts.js").ParameterFact | undefined} fact
   * @param {(session: Session) => [Uint8Array, Uint8Array]} nonces the newer one and the older one
   * @returns {Plain}
   */
  #decrypted(at, place, buffer, first, fact, nonces) {
    const { handle } = entriesOf(this.run.steps[at].buffer)[place];
    try {
      need(fact?.kind === "Buffer", "the first parameter is no buffer with a size");
      const size = numberOf(buffer.subarray(first, first + 2));
      need(first + 2 + size <= buffer.length, "the first parameter is cut");
      const session = this.#sessionAt(handle, at);
      const key = joined(session.key, this.#authorizedValue(at, place));
      const text = buffer.subarray(first + 2, first + 2 + size);
      const bytes = buffer.slice();
      bytes.set(decrypted(session, key, nonces(session), text), first + 2);
      return { session: handle, reason: "", bytes, from: first + 2, to: first + 2 + size };
    } catch (error) {
      if (!(error instanceof Unknown)) throw error;
      return { session: handle, reason: error.message, bytes: EMPTY, from: 0, to: 0 };
    }
  }

  /**
   * Returns the authorization value of the entity that an entry authorizes; empty if the entry authorizes no
   * entity.
   * @param {number} at @param {number} place
   */
  #authorizedValue(at, place) {
    const { buffer } = this.run.steps[at];
    const isAuthorized = byNumber.get(commandNumber(buffer))?.handles[place]?.isAuthorized;
    return isAuthorized ? this.#valueOf(numberOf(buffer.subarray(HEADER + SIZE * place, HEADER + SIZE * (place + 1))), at) : EMPTY;
  }

  /** @param {number} handle @param {number} at */
  #valueOf(handle, at) {
    const found = this.#hasParted(at) ? this.#valueSet(handle, at) : authOf(handle, this.run.stateAt(at));
    need(found !== undefined, `the script does not show the authValue of ${handleWords(handle)}`);
    return found ?? EMPTY;
  }

  /**
   * Returns whether the script was recorded on another device: an earlier response in it has a code
   * that differs from this device's.
   * @param {number} at
   */
  #hasParted(at) {
    const { steps, answers } = this.run;
    return steps.slice(0, at).some((it, step) => it.answers.length > 0 && responseCode(responseOf(this.run, step)) !== responseCode(answers[step].response));
  }

  /**
   * Returns the authorization value that the latest command before an event set or, if no command set it, the
   * value in the device with which the script begins.
   * @param {number} handle @param {number} at
   */
  #valueSet(handle, at) {
    for (let step = at - 1; step >= 0; step -= 1) {
      const { buffer } = this.run.steps[step];
      const setter = SETTERS[byNumber.get(commandNumber(buffer))?.name ?? ""];
      if (!setter || responseCode(responseOf(this.run, step))) continue;
      const bytes = bytesIn(this.command(step), buffer);
      const asked = namedFields(bytes, fieldsOfCommand);
      if (numberOf(asked(setter.handle)) === handle) return trimmed(asked(setter.value));
    }
    return authOf(handle, this.run.stateAt(0));
  }

  /**
   * Returns the state of a session before an event.
   * @param {number} handle @param {number} at @returns {Session}
   */
  #sessionAt(handle, at) {
    /** @type {Uint8Array | null} */
    let nonce = null;
    let step = at - 1;
    for (; step >= 0 && this.run.steps[step].kind === "command"; step -= 1) {
      if (this.#starts(step, handle)) {
        const started = this.#started(step);
        return { ...started, nonce: nonce ?? started.nonce };
      }
      nonce ??= this.#nonceAfter(step, handle);
    }
    return this.#given(handle, step + 1, nonce);
  }

  /** @param {number} step @param {number} handle */
  #starts(step, handle) {
    if (byNumber.get(commandNumber(this.run.steps[step].buffer))?.name !== START) return false;
    const response = responseOf(this.run, step);
    return !responseCode(response) && numberOf(response.subarray(HEADER, HEADER + SIZE)) === handle;
  }

  /**
   * Returns the TPM's nonce for a session in the response to a step.
   * @param {number} step @param {number} handle
   */
  #nonceAfter(step, handle) {
    const { buffer } = this.run.steps[step];
    const place = entriesOf(buffer).findIndex((it) => it.handle === handle);
    const command = byNumber.get(commandNumber(buffer));
    const response = responseOf(this.run, step);
    return command && place >= 0 && !responseCode(response) ? answersOf(command, response)[place]?.nonce ?? null : null;
  }

  /**
   * Returns a session that the device already has at the start of the script, for example from a
   * state text.
   * @param {number} handle @param {number} step @param {Uint8Array | null} nonce
   * @returns {Session}
   */
  #given(handle, step, nonce) {
    const found = this.run.stateAt(step).sessions.find((it) => it.handle === handle);
    const hash = HASHES.get(found?.hash ?? 0);
    if (!found || !hash) throw new Unknown("the script does not start it");
    const cipher = { algorithm: found.algorithm, keyBytes: AES_BLOCK };
    return { hash, cipher, key: found.key, nonce: nonce ?? found.nonce };
  }

  /**
   * Returns the session that a command starts, computed from its nonces after decryption.
   * @param {number} step @returns {Session}
   */
  #started(step) {
    const found = this.known.get(step) ?? this.#computed(step);
    this.known.set(step, found);
    return found;
  }

  /** @param {number} step @returns {Session} */
  #computed(step) {
    need(this.starts < MOST_STARTS, "too many sessions were started by others");
    const inner = new Decryption(this.run, this.starts + 1, this.known);
    const asked = namedFields(bytesIn(inner.command(step), this.run.steps[step].buffer), fieldsOfCommand);
    const answered = namedFields(bytesIn(inner.response(step), responseOf(this.run, step)), (it) => fieldsOfResponse(commandNumber(this.run.steps[step].buffer), it, String));
    const hashNumber = numberOf(asked("authHash"));
    const hash = HASHES.get(hashNumber);
    if (!hash) throw new Unknown(`its hash, ${hexNumber(hashNumber, 4)}, is not known here`);
    need(numberOf(asked("tpmKey")) === NULL_HANDLE, "it is salted, and the script does not show the salt");
    const nonce = answered("nonceTPM");
    const bind = numberOf(asked("bind"));
    const key = bind === NULL_HANDLE ? EMPTY : kdfa(hash, this.#valueOf(bind, step), "ATH", nonce, asked("nonceCaller"), hash.size);
    const cipher = { algorithm: numberOf(asked("symmetric")), keyBytes: numberOf(asked("keyBits")) / 8 };
    return { hash, cipher, key, nonce };
  }
}

/** @param {Plain | null} plain @param {Uint8Array} sent */
function bytesIn(plain, sent) {
  need(!plain?.reason, `an earlier command is encrypted by session ${hexNumber(plain?.session ?? 0, 8)}: ${plain?.reason}`);
  return plain ? plain.bytes : sent;
}

/**
 * Removes the trailing zeros of an authorization value, which do not count.
 * @param {Uint8Array} value
 */
function trimmed(value) {
  let size = value.length;
  while (size > 0 && value[size - 1] === 0) size -= 1;
  return value.subarray(0, size);
}

/**
 * Returns a function that maps the name of a field to the field's bytes, without its size field.
 * @param {Uint8Array} bytes @param {(bytes: Uint8Array) => import("./fields.js").Field[]} fieldsOf
 */
function namedFields(bytes, fieldsOf) {
  const fields = fieldsOf(bytes);
  return (/** @type {string} */ name) => {
    const found = fields.find((it) => it.name === name && it.sort !== "entry");
    return found ? bytes.subarray(found.at + found.front, found.at + found.size) : EMPTY;
  };
}

/** @param {Session} session @param {Uint8Array} key @param {[Uint8Array, Uint8Array]} nonces @param {Uint8Array} text */
function decrypted({ hash, cipher }, key, [newer, older], text) {
  if (cipher.algorithm === XOR) {
    const mask = kdfa(hash, key, "XOR", newer, older, text.length);
    return text.map((it, at) => it ^ mask[at]);
  }
  need(cipher.algorithm === AES, "it has no cipher");
  need([16, 24, 32].includes(cipher.keyBytes), `its key has ${8 * cipher.keyBytes} bits`);
  const both = kdfa(hash, key, "CFB", newer, older, cipher.keyBytes + AES_BLOCK);
  return cfbDecrypted(both.subarray(0, cipher.keyBytes), both.subarray(cipher.keyBytes), text);
}
