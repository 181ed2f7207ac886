// Turns pasted buffers and other texts about a TPM into a script. The work is done in parts, since a text may have
// millions of characters.

import { MOST_LINES, OVER, tooMuch } from "./bounds.js";
import { sizeAt, takenOf, Taking } from "./taken.js";
import { grouped } from "./words.js";

const PART = { characters: 1 << 16, buffers: 1 << 10 };

const BETWEEN = 16;
const AFTER_ZERO = 17;
const OTHER = 255;
/** @typedef {import("./taken.js").Found} Found */

/** For each ASCII character: the value of the hex digit, or what else the character is. */
const MEANINGS = Uint8Array.from({ length: 128 }, (_, code) => {
  const character = String.fromCharCode(code);
  if (/[0-9a-f]/i.test(character)) return parseInt(character, 16);
  if (/[\s,:;]/.test(character)) return BETWEEN;
  return /x/i.test(character) ? AFTER_ZERO : OTHER;
});

/** @param {string} text @param {number} at */
function meaningAt(text, at) {
  const code = text.charCodeAt(at);
  if (code < MEANINGS.length) return MEANINGS[code];
  return /\s/.test(text[at]) ? BETWEEN : OTHER;
}

/**
 * Returns the bytes that a text encodes in hex; null if it contains anything but digits, `0x`, white space,
 * commas, colons and semicolons.
 * @param {string} text @returns {Generator<void, Uint8Array | null>}
 */
function* bytesIn(text) {
  const bytes = new Uint8Array((text.length >> 1) + 1);
  let digits = 0;
  for (let at = 0; at < text.length; at += 1) {
    if (at % PART.characters === PART.characters - 1) yield;
    const meaning = meaningAt(text, at);
    if (meaning < BETWEEN) {
      bytes[digits >> 1] |= digits % 2 ? meaning : meaning << 4;
      digits += 1;
    } else if (meaning === AFTER_ZERO && at > 0 && text[at - 1] === "0") {
      digits -= 1;
    } else if (meaning !== BETWEEN) {
      return null;
    }
  }
  return digits % 2 ? null : bytes.subarray(0, digits / 2);
}

/**
 * Returns the script of bytes that are buffers, one after another, with the responses as comments; null if they are
 * not, and the offset at which no buffer begins.
 * @param {Uint8Array} bytes @returns {Generator<void, {found: Found | null, end: number}>}
 */
export function* scriptOfBytes(bytes) {
  const script = new Taking();
  let end = 0;
  for (let size = sizeAt(bytes, 0), count = 1; size > 0 && end + size <= bytes.length; size = sizeAt(bytes, end), count += 1) {
    script.add(bytes.subarray(end, end + size));
    end += size;
    if (count % PART.buffers === 0) yield;
  }
  return { found: end === bytes.length ? script.found() : null, end };
}

/**
 * Describes buffers that are too many or too long for the page.
 * @param {number} count
 */
export const countWords = (count) =>
  `${count > MOST_LINES ? "" : `${OVER} in `}${grouped(count)} commands and responses`;

/**
 * Returns the script of a text that contains only buffers in hex; null for any other text. A line may contain
 * several buffers, and a buffer may continue on the next lines.
 * @param {string} text @returns {Generator<void, Found | null>}
 */
export function* scriptOfBuffers(text) {
  const bytes = yield* bytesIn(text);
  return bytes && (yield* scriptOfBytes(bytes)).found;
}

const MOST_SPACED = 1 << 16;
const SPACED = /^cmd\s+((?:(?:0x)?[0-9a-f]{2}[\s,:;]*)+)$/i;
const SEPARATORS = /0x|[\s,:;]+/gi;

/** @param {string} line */
const joinedLine = (line) => (line.length > MOST_SPACED ? line
  : line.replace(SPACED, (_, /** @type {string} */ bytes) => `cmd ${bytes.replace(SEPARATORS, "").toLowerCase()}`));

/**
 * Returns the text to insert for a text that is pasted after `before` in a line, and the number of buffers in
 * it. The text is "" if the buffers are too many for the page.
 * @param {string} before @param {string} text @returns {Generator<void, Found>}
 */
export function* pastedText(before, text) {
  const own = { text, count: 0 };
  if (before !== "" && before !== "cmd ") return own;
  const script = (yield* scriptOfBuffers(text)) ?? (before ? null : yield* takenOf(text));
  if (script && !script.text) return script;
  if (!script && tooMuch("", text, "")) return own;
  const joined = script?.text ?? `${before}${text}`.split("\n").map(joinedLine).join("\n");
  if (!joined.startsWith(before)) return own;
  const found = joined.slice(before.length);
  return { text: before && script ? found.replace(/\n$/, "") : found, count: script?.count ?? 0 };
}
