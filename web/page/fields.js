// Divides commands and responses into fields. Each byte belongs to a field, even if the bytes are
// malformed.

import { hexNumber, numberOf } from "./bytes.js";
import { byNumber, facts } from "./facts.js";
import {
  algorithmWords, bitWords, commandWords, grouped, localitiesWords, nvFlagWords, nvTypeWords,
  PASSWORD_HANDLE, pcrWords,
  plural, saidBytes, saidHandle, secondsWords, sizeWords,
} from "./words.js";

/**
 * A field: its offset; its size, including a size field of `front` bytes; the part of the buffer
 * that it belongs to; and the number of structures around it. A structure is a field with
 * `isGroup`, and the fields in it follow it.
 * @typedef {"header" | "handle" | "entry" | "parameter" | "rest"} Sort
 * @typedef {{
 *   name: string, at: number, size: number, front: number, meaning: string, sort: Sort,
 *   depth: number, isGroup: boolean,
 * }} Field
 * @typedef {(walk: Walk, name: string) => void} Read
 */

export const WITH_ENTRIES = 0x8002;
const ALG = { sha1: 4, hmac: 5, aes: 6, xor: 10, sha256: 11, cipherObject: 0x25 };
const DIGEST_BYTES = new Map([[ALG.sha1, 20], [ALG.sha256, 32]]);

/** The bytes end within a field. */
class Cut extends Error {}

/** Reads fields from bytes, in order. */
class Walk {
  /** @param {Uint8Array} bytes */
  constructor(bytes) {
    this.bytes = bytes;
    this.at = 0;
    this.depth = 0;
    this.end = bytes.length;
    /** @type {Sort} */
    this.sort = "header";
    /** @type {Field[]} */
    this.fields = [];
  }

  /**
   * Adds a field of `size` bytes, the first `front` of which are a size field.
   * @param {number} size @param {string} name @param {(bytes: Uint8Array) => string} meaning
   */
  take(size, name, meaning, front = 0) {
    const left = this.end - this.at;
    const isWhole = size <= left;
    const found = this.bytes.subarray(this.at, this.at + Math.min(size, left));
    const rest = found.subarray(front);
    this.fields.push({
      name, at: this.at, size: found.length, front: Math.min(front, left), sort: this.sort,
      depth: this.depth, isGroup: false,
      meaning: isWhole ? meaning(rest) : `cut: ${left} of ${size} bytes`,
    });
    this.at += found.length;
    if (!isWhole) throw new Cut();
    return rest;
  }

  /** @param {number} size @param {string} name @param {(value: number) => string} [meaning] */
  number(size, name, meaning = String) {
    return numberOf(this.take(size, name, (bytes) => meaning(numberOf(bytes))));
  }

  /** @param {number} size @param {string} name @param {(value: bigint) => string} meaning */
  big(size, name, meaning) {
    this.take(size, name, (bytes) => meaning([...bytes].reduce((all, it) => all * 256n + BigInt(it), 0n)));
  }

  /** Returns the value of the size field that comes next. */
  peek() {
    return numberOf(this.bytes.subarray(this.at, Math.min(this.at + 2, this.end)));
  }

  /** @param {string} name @param {(bytes: Uint8Array) => string} [meaning] */
  buffer(name, meaning = saidBytes) {
    return this.take(2 + this.peek(), name, meaning, 2);
  }

  /** @param {string} name @param {string} word @param {(place: number) => void} each */
  elements(name, word, each) {
    const count = this.number(4, name, (value) => plural(value, word));
    for (let place = 1; place <= count; place += 1) {
      this.depth += 1;
      each(place);
      this.depth -= 1;
    }
  }

  /**
   * Adds a structure with the fields that `read` reads. Its size is `size`, or else the size of
   * these fields.
   * @param {string} name @param {number | null} size @param {number} front @param {() => void} read
   */
  group(name, size, front, read) {
    if (this.end - this.at < front) this.take(front, name, () => "");
    /** @type {Field} */
    const field = {
      name, at: this.at, size: 0, front, meaning: "", sort: this.sort, depth: this.depth,
      isGroup: true,
    };
    this.fields.push(field);
    const end = this.end;
    this.at += front;
    if (size !== null) this.end = Math.min(this.end, this.at + size);
    this.depth += 1;
    try {
      read();
      if (size !== null) this.rest("left over");
    } finally {
      field.size = this.at - field.at;
      this.end = end;
      this.depth -= 1;
    }
  }

  /** @param {string} name */
  rest(name) {
    if (this.at < this.end) this.take(this.end - this.at, name, (it) => sizeWords(it.length));
  }

  /** @param {string} name */
  algorithm(name) {
    return this.number(2, name, algorithmWords);
  }

  /** @param {string} name */
  handle(name) {
    return this.number(4, name, saidHandle);
  }
}

/** @param {number} value */
const asHex = (value) => `0x${value.toString(16)}`;

/** @param {number} size @param {(value: number) => string} [meaning] @returns {Read} */
const number = (size, meaning) => (walk, name) => walk.number(size, name, meaning);

/** @param {number} size @param {() => ArrayLike<string> | Record<string, string>} names @param {string} other */
const named = (size, names, other) =>
  number(size, (value) => /** @type {any} */ (names())[value] ?? other);

/**
 * Returns a reader of a structure that begins with a size field.
 * @param {(walk: Walk) => void} read @returns {Read}
 */
const structure = (read) => (walk, name) => {
  walk.group(name, walk.peek(), 2, () => read(walk));
};

/** @param {(walk: Walk) => void} read @returns {Read} */
const unsized = (read) => (walk, name) => walk.group(name, null, 0, () => read(walk));

/** @type {Read} */
function selection(walk, name) {
  walk.elements(name, "bank", () => {
    walk.algorithm("hash");
    const size = walk.number(1, "sizeofSelect");
    walk.take(size, "pcrSelect", pcrWords);
  });
}

/** @type {Read} */
function digests(walk, name) {
  walk.elements(name, "digest", () => {
    const size = DIGEST_BYTES.get(walk.algorithm("hashAlg"));
    if (size) walk.take(size, "digest", () => "");
  });
}

/** @type {Read} */
function buffers(walk, name) {
  walk.elements(name, "buffer", (place) => walk.buffer(`${name} ${place}`));
}

/** @type {Read} */
function cipher(walk, name) {
  const algorithm = walk.algorithm(name);
  walk.depth += 1;
  if (algorithm === ALG.aes) {
    walk.number(2, "keyBits");
    walk.algorithm("mode");
  } else if (algorithm === ALG.xor) {
    walk.algorithm("hashAlg");
  }
  walk.depth -= 1;
}

const sensitiveCreate = structure((walk) => {
  walk.buffer("userAuth");
  walk.buffer("data");
});

const publicArea = structure((walk) => {
  const type = walk.algorithm("type");
  walk.algorithm("nameAlg");
  walk.number(4, "objectAttributes", (value) => bitWords(value, facts.objectFlags));
  walk.buffer("authPolicy");
  if (type === ALG.cipherObject) cipher(walk, "symmetric");
  else if (walk.algorithm("scheme") === ALG.hmac) walk.algorithm("hashAlg");
  walk.buffer("unique");
});

const nvPublic = structure((walk) => {
  walk.handle("nvIndex");
  walk.algorithm("nameAlg");
  walk.number(4, "attributes", (value) => `type ${nvTypeWords(value)}; ${nvFlagWords(value)}`);
  walk.buffer("authPolicy");
  walk.number(2, "dataSize", sizeWords);
});

const privateArea = structure((walk) => {
  walk.buffer("integrity", () => "an HMAC by the parent");
  walk.buffer("iv");
  walk.rest("encrypted");
});

const creationData = structure((walk) => {
  selection(walk, "pcrSelect");
  walk.buffer("pcrDigest");
  walk.number(1, "locality", localitiesWords);
  walk.algorithm("parentNameAlg");
  walk.buffer("parentName");
  walk.buffer("parentQualifiedName");
  walk.buffer("outsideInfo");
});

const ticket = unsized((walk) => {
  walk.number(2, "tag", (value) => facts.tickets[value] ?? "of another kind");
  walk.handle("hierarchy");
  walk.buffer("digest");
});

const timeInfo = unsized((walk) => {
  walk.big(8, "time", secondsWords);
  walk.big(8, "clock", secondsWords);
  walk.number(4, "resetCount");
  walk.number(4, "restartCount");
  walk.number(1, "safe");
});

const capability = unsized((walk) => {
  walk.number(4, "capability", asHex);
  walk.rest("elements");
});

/** @type {Record<string, Read>} */
const OF_KIND = {
  u8: number(1), u16: number(2), u32: number(4), bits8: number(1, asHex), code32: number(4, asHex),
  bits64: (walk, name) => walk.big(8, name, (value) => `0x${value.toString(16)}`),
  handle32: (walk, name) => walk.handle(name), Buffer: (walk, name) => walk.buffer(name),
  Buffers: buffers, Selection: selection, Digests: digests, Cipher: cipher,
  Hash: (walk, name) => walk.algorithm(name), Ticket: ticket, Time: timeInfo,
  Capability: capability,
};

const seconds = number(4, (value) => `${grouped(value)} s`);

/**
 * The readers of parameters whose names say more than their types.
 * @type {Record<string, Read>}
 */
const OF_NAME = {
  startupType: named(2, () => facts.starts, "not a type of startup"),
  shutdownType: named(2, () => facts.starts, "not a type of shutdown"),
  sessionType: named(1, () => facts.sessions, "not a type of session"),
  operation: named(2, () => facts.operations, "no operation"),
  code: number(4, commandWords),
  locality: number(1, (value) => `localities ${localitiesWords(value)}`),
  inSensitive: sensitiveCreate, inPublic: publicArea, outPublic: publicArea, publicInfo: nvPublic,
  nvPublic, inPrivate: privateArea, outPrivate: privateArea, creationData,
  newRecoveryTime: seconds, lockoutRecovery: seconds,
};

/** @param {Uint8Array} bytes @param {(walk: Walk) => void} read */
function fieldsOf(bytes, read) {
  const walk = new Walk(bytes);
  try {
    read(walk);
  } catch (error) {
    if (!(error instanceof Cut)) throw error;
  }
  walk.depth = 0;
  walk.end = bytes.length;
  walk.sort = "rest";
  walk.rest("left over");
  return walk.fields;
}

/** @param {Walk} walk @param {string} of @param {(code: number) => string} meaning */
function header(walk, of, meaning) {
  const tag = walk.number(2, "tag", (value) => facts.tags[value] ?? "no tag of a command");
  walk.number(4, `${of}Size`, sizeWords);
  return { tag, code: walk.number(4, `${of}Code`, meaning) };
}

/** @param {Walk} walk @param {number} end @param {boolean} isCommand */
function entries(walk, end, isCommand) {
  for (let place = 1; walk.at < end; place += 1) {
    walk.group(`entry ${place}`, null, 0, () => {
      const whole = walk.end;
      walk.end = end;
      try {
        const isPassword = isCommand && walk.handle("sessionHandle") === PASSWORD_HANDLE;
        walk.buffer(isCommand ? "nonceCaller" : "nonceTPM");
        walk.number(1, "sessionAttributes", (value) => bitWords(value, facts.entryFlags));
        walk.buffer(isPassword ? "password" : "hmac");
      } finally {
        walk.end = whole;
      }
    });
  }
}

/** @param {Walk} walk @param {import("./facts.js").ParameterFact[]} those */
function parameters(walk, those) {
  walk.sort = "parameter";
  for (const { name, kind } of those) (OF_NAME[name] ?? OF_KIND[kind])(walk, name);
  walk.rest("left over");
}

/** @param {Uint8Array} buffer */
export function fieldsOfCommand(buffer) {
  return fieldsOf(buffer, (walk) => {
    const { tag, code } = header(walk, "command", commandWords);
    const command = byNumber.get(code);
    if (!command) return;
    walk.sort = "handle";
    for (const { name } of command.handles) walk.handle(name);
    if (tag === WITH_ENTRIES) {
      walk.sort = "entry";
      const size = walk.number(4, "authorizationSize", sizeWords);
      entries(walk, Math.min(walk.end, walk.at + size), true);
    }
    parameters(walk, command.parameters);
  });
}

/**
 * Returns the fields of the response to a command with this number.
 * @param {number} number @param {Uint8Array} response @param {(code: number) => string} meaning
 */
export function fieldsOfResponse(number, response, meaning) {
  return fieldsOf(response, (walk) => {
    const { tag, code } = header(walk, "response", meaning);
    const command = byNumber.get(number);
    if (code || !command) return;
    walk.sort = "handle";
    for (const name of command.answeredHandles) walk.handle(name);
    walk.sort = "header";
    const end = walk.end;
    if (tag === WITH_ENTRIES) {
      const size = walk.number(4, "parameterSize", sizeWords);
      walk.end = Math.min(end, walk.at + size);
    }
    parameters(walk, command.answeredParameters);
    walk.end = end;
    walk.sort = "entry";
    entries(walk, end, false);
  });
}

/**
 * Returns the number of the command in a buffer, or 0 if the buffer is too short.
 * @param {Uint8Array} buffer
 */
export const commandNumber = (buffer) => (buffer.length < 10 ? 0 : numberOf(buffer.subarray(6, 10)));

/**
 * Returns the response code of a response.
 * @param {Uint8Array} response
 */
export const responseCode = (response) => commandNumber(response);

/** @param {number} code */
export const codeDigits = (code) => hexNumber(code, 3);
