// Makes and reads links that contain a script, opens files, and downloads files.

import { MOST_TEXT, OVER, refusal, tooMuch } from "./bounds.js";
import { decoded, encoded, hexOf } from "./bytes.js";
import { make } from "./dom.js";
import { countWords, scriptOfBuffers, scriptOfBytes } from "./pasted.js";
import { onDevice } from "./script.js";
import { MOST_BUFFER, takenOf, takenOfCapture } from "./taken.js";
import { inTurns } from "./turns.js";
import { grouped } from "./words.js";

const MOST_LINK = 60000;
const LINK_FRONT = "#s=";
/** The size of the compressed script in the longest link: four characters encode three bytes. */
const MOST_PACKED = Math.floor(((MOST_LINK - LINK_FRONT.length) * 3) / 4);
const MOST_FILE = 16 * 1024 * 1024;
const MOST_DEVICE = 1024 * 1024;
/** The first byte of a command; no text begins with it. */
const BINARY = 0x80;
const CARRIAGE_RETURN = 0x0d;
const NEWLINE = 0x0a;
const PART = 1 << 16;
/** A text has at most one control character in so many bytes. */
const LEAST_BETWEEN_CONTROLS = 16;
const NO_SCRIPT = "The link holds no script.";
const OF_LINK = "The script of this link has";
const ASK_FOR_FILE = "Ask for it as a file, and play it with tpmsim run.";
const OPEN_PART = "Open a part of the file";

/**
 * @typedef {{text: string, note: string, isBad: boolean}} Opened the script in a file, and a message; if
 *   `isBad`, the message says why the file is refused
 */
const FRAGMENT = /^#s=([\w-]+)(?:&n=(\d{1,7}))?$/;

// TypeScript in Debian does not declare these two classes.
const { CompressionStream, DecompressionStream } = /** @type {any} */ (globalThis);

/** @param {Uint8Array} bytes */
const packed = (bytes) =>
  btoa(Array.from(bytes, (it) => String.fromCharCode(it)).join("")).replace(/\+/g, "-").replace(/\//g, "_").replace(/=+$/, "");

/** @param {string} text in base64, or its form for links */
export const unpacked = (text) =>
  Uint8Array.from(atob(text.replace(/-/g, "+").replace(/_/g, "/")), (it) => it.charCodeAt(0));

/**
 * Returns the output of a stream for these bytes; fails if it is longer than `most` bytes.
 * @param {Uint8Array} bytes @param {any} stream @param {number} most
 */
async function through(bytes, stream, most) {
  const reader = new Blob([bytes]).stream().pipeThrough(stream).getReader();
  const parts = [];
  let size = 0;
  for (;;) {
    const { done, value } = await reader.read();
    if (done) break;
    size += value.length;
    if (size > most) throw new RangeError("too long");
    parts.push(value);
  }
  return new Uint8Array(await new Blob(parts).arrayBuffer());
}

/**
 * Unpacks raw deflate; fails if the result is longer than `most` bytes.
 * @param {Uint8Array} bytes @param {number} most
 */
export const inflated = (bytes, most) => through(bytes, new DecompressionStream("deflate-raw"), most);

/**
 * Returns the fragment of a link that contains a script, or "" if the script is too long for a
 * link.
 * @param {string} text
 */
export async function fragmentOf(text) {
  if (tooMuch("", text, "")) return "";
  try {
    return `${LINK_FRONT}${packed(await through(encoded(text), new CompressionStream("deflate-raw"), MOST_PACKED))}`;
  } catch (error) {
    if (error instanceof RangeError) return "";
    throw error;
  }
}

/**
 * Returns the script in a fragment, or a sentence that says why the page does not take it; null if the fragment is
 * empty.
 * @param {string} fragment
 */
export async function scriptOf(fragment) {
  if (fragment.length < 2) return null;
  const found = FRAGMENT.exec(fragment);
  try {
    const text = found ? decoded(await inflated(unpacked(found[1]), MOST_TEXT)) : "";
    return { text, fault: text ? tooMuch(OF_LINK, text, ASK_FOR_FILE) : NO_SCRIPT };
  } catch (error) {
    const isLong = error instanceof RangeError;
    return { text: "", fault: isLong ? refusal(OF_LINK, OVER, ASK_FOR_FILE) : NO_SCRIPT };
  }
}

/**
 * Returns the step that a fragment chooses, counted from 0, or -1 if it chooses none.
 * @param {string} fragment
 */
export const stepOf = (fragment) => Number(FRAGMENT.exec(fragment)?.[2] ?? 0) - 1;

/** @param {string} name @param {BlobPart[]} parts */
export function download(name, parts) {
  const url = URL.createObjectURL(new Blob(parts, { type: "application/octet-stream" }));
  make("a", { href: url, download: name }).click();
  setTimeout(() => URL.revokeObjectURL(url), 10000);
}

/** @param {string} note @returns {Opened} */
const refused = (note) => ({ text: "", note, isBad: true });

/**
 * Returns the script in a file. For an image or a state text, returns the current script with the
 * device in that text. Returns null as soon as the script is not needed any more.
 * @param {File} file @param {string} present @param {() => boolean} isNeeded
 */
export async function opened(file, present, isNeeded) {
  if (file.size > MOST_FILE) return refused(`${file.name} has more than 16 MiB.`);
  const bytes = new Uint8Array(await file.arrayBuffer());
  return isNeeded() ? inTurns(scriptOfFile(file.name, bytes, present), isNeeded) : null;
}

/**
 * @param {string} name @param {Uint8Array} bytes @param {string} present
 * @returns {Generator<void, Opened>}
 */
export function* scriptOfFile(name, bytes, present) {
  const magic = decoded(bytes.subarray(0, 4));
  if (magic === "TPMI") return onTop(present, "image", bytes, name, `The script begins on the device of the image ${name}.`);
  if (magic === "TPMS") return onTop(present, "state", bytes, name, `The script goes on with the device of the state text ${name}.`);
  if (bytes[0] === BINARY) return yield* scriptOfBinary(name, bytes);
  const captured = yield* takenOfCapture(bytes);
  if (captured !== undefined) return captured ? ofBuffers(name, captured) : refused(`${name} is a capture without commands and responses.`);
  const text = yield* textIn(bytes);
  if (text === null) return refused(`${name} is neither a text nor an image, a state text or commands in binary.`);
  if (!text && bytes.length) return refused(`${name} has only zeros.`);
  const buffers = (yield* scriptOfBuffers(text)) ?? (yield* takenOf(text));
  return buffers ? ofBuffers(name, buffers) : ofText(name, text, tooMuch(`${name} has`, text, `${OPEN_PART}, or play it with tpmsim run.`));
}

/** @param {string} name @param {string} text @param {string} fault @returns {Opened} */
const ofText = (name, text, fault) => (fault ? refused(fault) : { text, note: `${name} is open.`, isBad: false });

/** @param {string} name @param {import("./taken.js").Found} found @returns {Opened} */
function ofBuffers(name, { text, count, remarks = [] }) {
  if (!text) return refused(refusal(`${name} has`, countWords(count), `${OPEN_PART}.`));
  return { text, note: [`${name} is open.`, ...remarks.map((it) => `${it[0].toUpperCase()}${it.slice(1)}.`)].join(" "), isBad: false };
}

/**
 * Returns the script of a file that begins like a command in binary.
 * @param {string} name @param {Uint8Array} bytes @returns {Generator<void, Opened>}
 */
function* scriptOfBinary(name, bytes) {
  const { found, end } = yield* scriptOfBytes(bytes);
  if (found) return ofBuffers(name, found);
  if (bytes.length <= MOST_BUFFER) return ofText(name, `cmd ${hexOf(bytes)}\n`, "");
  return refused(`${name} is no list of commands and responses: none begins at its offset ${grouped(end)}.`);
}

/**
 * Returns the text that bytes encode, without zeros at its end, and with a newline at the end of each line.
 * Returns null if too many of the bytes are control characters.
 * @param {Uint8Array} bytes @returns {Generator<void, string | null>}
 */
function* textIn(bytes) {
  const size = yield* sizeWithoutZeros(bytes);
  const text = new Uint8Array(size);
  let end = 0;
  let controls = 0;
  for (let at = 0; at < size; at += 1) {
    if (at % PART === PART - 1) yield;
    const byte = bytes[at];
    if (byte === CARRIAGE_RETURN && bytes[at + 1] === NEWLINE) continue;
    if (isControl(byte)) controls += 1;
    text[end] = byte === CARRIAGE_RETURN ? NEWLINE : byte;
    end += 1;
  }
  return controls * LEAST_BETWEEN_CONTROLS > size ? null : decoded(text.subarray(0, end));
}

/**
 * Returns whether no text has this byte: it is neither printable nor white space nor an escape.
 * @param {number} byte
 */
const isControl = (byte) => byte === 0x7f || (byte < 0x20 && byte !== 0x1b && (byte < 0x09 || byte > CARRIAGE_RETURN));

/** @param {Uint8Array} bytes @returns {Generator<void, number>} */
function* sizeWithoutZeros(bytes) {
  let size = bytes.length;
  for (; size > 0 && bytes[size - 1] === 0; size -= 1) if (size % PART === 0) yield;
  return size;
}

/**
 * @param {string} present @param {string} word @param {Uint8Array} bytes @param {string} name @param {string} note
 * @returns {Opened}
 */
function onTop(present, word, bytes, name, note) {
  if (bytes.length > MOST_DEVICE) return refused(`${name} is no ${word}: it has more than 1 MiB.`);
  const text = onDevice(present, `# ${word} ${hexOf(bytes)}`);
  const fault = tooMuch("With this device the script has", text, "Shorten the script first.");
  return fault ? refused(fault) : { text, note, isBad: false };
}
