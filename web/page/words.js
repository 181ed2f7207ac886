// Describes numbers, handles and bytes with the same words as tools/explain.py.

import { decoded, hexNumber, hexOf } from "./bytes.js";
import { byNumber, facts } from "./facts.js";

export const PASSWORD_HANDLE = 0x40000009;

/** @param {number} count @param {string} word */
export const plural = (count, word) => `${grouped(count)} ${word}${count === 1 ? "" : "s"}`;

const groupedNumbers = new Intl.NumberFormat("en");
const seconds = new Intl.NumberFormat("en", { maximumFractionDigits: 6 });
const hours = new Intl.NumberFormat("en", { minimumFractionDigits: 1, maximumFractionDigits: 1 });

/** @param {number | bigint} number */
export const grouped = (number) => groupedNumbers.format(number);

/** @param {number} count */
export const sizeWords = (count) => plural(count, "byte");

/** @param {number} number */
export const algorithmWords = (number) => facts.algorithms[number] ?? hexNumber(number, 4);

/** @param {number} handle */
export function handleWord(handle) {
  const named = Object.entries(facts.handleNames).find(([, number]) => number === handle);
  return named ? named[0] : hexNumber(handle, 8);
}

/** @param {number} handle */
export function handleWords(handle) {
  if (handle < facts.pcrs) return `PCR ${handle}`;
  return handle === PASSWORD_HANDLE ? "the password" : handleWord(handle);
}

/** @param {number} handle */
export function kindWords(handle) {
  if (handle < facts.pcrs) return "a PCR";
  if (handle === PASSWORD_HANDLE) return "the handle of a password";
  if (Object.values(facts.handleNames).includes(handle)) return handleWords(handle);
  return facts.ofFirstByte[handle >>> 24] ?? `of no kind that is served${decimalWords(handle)}`;
}

/**
 * Says what to write if the handle is a served one whose hex digits were read in decimal.
 * @param {number} handle
 */
function decimalWords(handle) {
  const meant = Number.parseInt(String(handle >>> 0), 16);
  if (!(Math.floor(meant / 2 ** 24) in facts.ofFirstByte)) return "";
  return ` (it is ${handle >>> 0} in decimal; in words, write 0x${meant.toString(16).padStart(8, "0")})`;
}

/**
 * Describes a handle in a buffer.
 * @param {number} handle
 */
export function saidHandle(handle) {
  const said = handleWords(handle);
  const kind = kindWords(handle);
  return [kind, hexNumber(handle, 8), "the password"].includes(said) ? kind : said;
}

/** @param {number} number */
export function commandWords(number) {
  return byNumber.get(number)?.name ?? facts.otherCommands[number] ?? hexNumber(number, 8);
}

/** @param {Uint8Array} bytes */
export const isPrintable = (bytes) =>
  bytes.length > 2 && bytes.every((byte) => byte >= 0x20 && byte < 0x7f);

/** @param {Uint8Array} bytes */
export const saidBytes = (bytes) =>
  isPrintable(bytes) ? `"${decoded(bytes)}"` : sizeWords(bytes.length);

/**
 * Returns bytes in hex, followed by the text that they encode if it is printable.
 * @param {Uint8Array} bytes
 */
export function bytesWords(bytes) {
  if (!bytes.length) return "empty";
  return isPrintable(bytes) ? `${hexOf(bytes)} "${decoded(bytes)}"` : hexOf(bytes);
}

/**
 * Returns the names of the bits that are set, and in hex the bits without a name.
 * @param {number} value @param {Record<string, string>} names
 */
export function bitWords(value, names) {
  const found = [];
  let rest = value;
  for (const [bit, name] of Object.entries(names)) {
    if ((value & Number(bit)) === 0) continue;
    found.push(name);
    rest &= ~Number(bit);
  }
  if (rest) found.push(`0x${(rest >>> 0).toString(16)}`);
  return found.join(", ") || "none";
}

const NV_TYPE_BITS = 0xf0;

/** @param {number} attributes */
export const nvTypeWords = (attributes) => {
  const type = (attributes & NV_TYPE_BITS) >> 4;
  return facts.nvTypes[type] ?? String(type);
};

/** @param {number} attributes */
export const nvFlagWords = (attributes) =>
  bitWords((attributes & ~NV_TYPE_BITS) >>> 0, facts.nvFlags);

/** @param {number} bits */
export const localitiesWords = (bits) =>
  [0, 1, 2, 3, 4, 5, 6, 7].filter((it) => (bits >> it) & 1).join(", ") || "none";

/** @param {number | bigint} milliseconds */
export function secondsWords(milliseconds) {
  const passed = Number(milliseconds) / 1000;
  if (passed < 36000) return `${seconds.format(Number(passed.toPrecision(6)))} s`;
  return `${hours.format(passed / 3600)} h`;
}

/**
 * Returns the PCRs that a selection's bits select.
 * @param {Uint8Array} bits
 */
export function pcrWords(bits) {
  const found = [];
  for (let pcr = 0; pcr < 8 * bits.length; pcr += 1) {
    if ((bits[pcr >> 3] >> (pcr & 7)) & 1) found.push(pcr);
  }
  return found.length ? `PCR ${found.join(", ")}` : "no PCR";
}
