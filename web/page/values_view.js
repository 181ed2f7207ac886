// Shows two values that were compared, byte under byte, and marks the bytes that differ.

import { hexOf } from "./bytes.js";
import { make } from "./dom.js";
import { icon } from "./icons.js";
import { bytesWords, isPrintable } from "./words.js";

/**
 * @typedef {{label: string, bytes: Uint8Array, words?: string}} Value
 * @typedef {{given: Value, wanted: Value[], said: string}} Pair the given value, the values that are accepted, and a sentence
 *   that says what is wrong
 */

const SHORT = 12;
const PER_ROW = 16;

/** @param {Pair} pair */
export function pairShown({ given, wanted }) {
  const isLong = [given, ...wanted].some((it) => it.bytes.length > SHORT);
  return make(
    "div", { class: isLong ? "drawn pair long" : "drawn pair" },
    valueShown("given", given, wanted, isLong),
    ...wanted.map((it) => valueShown("wanted", it, [given], isLong)),
  );
}

/** @param {"given" | "wanted"} kind @param {Value} value @param {Value[]} others @param {boolean} isLong */
function valueShown(kind, { label, bytes, words = "" }, others, isLong) {
  const isText = isPrintable(bytes);
  const places = placesOf(bytes, others);
  const cells = [...bytes].map((byte, at) => make(
    "b", { class: places.has(at) ? "differs" : false }, hexOf(bytes.subarray(at, at + 1)),
    isText && !isLong ? make("small", {}, String.fromCharCode(byte)) : null,
  ));
  const rows = [];
  for (let at = 0; at === 0 || at < cells.length; at += PER_ROW) rows.push(make("div", { class: "cells" }, ...cells.slice(at, at + PER_ROW)));
  const said = words || (bytes.length ? "" : "empty");
  if (said) rows[rows.length - 1].append(make("i", {}, said));
  return make(
    "div", { class: `value ${kind}` },
    make("h4", {}, icon(kind === "given" ? "no" : "yes"), label),
    make("div", { "aria-hidden": "true" }, ...rows),
    make("p", { class: "unseen" }, `${bytesWords(bytes)} ${words}`),
  );
}

/**
 * Returns the places at which a value differs from all others. Two hashes differ at nearly every place, of which none
 * is marked.
 * @param {Uint8Array} bytes @param {Value[]} others
 */
function placesOf(bytes, others) {
  const found = [...bytes.keys()].filter((at) => others.every((it) => it.bytes[at] !== bytes[at]));
  return new Set(bytes.length > SHORT && found.length > bytes.length / 2 ? [] : found);
}

/**
 * Says in words where two values differ.
 * @param {Uint8Array} given @param {Uint8Array} wanted
 */
export function differenceWords(given, wanted) {
  if (given.length !== wanted.length) return `${lengthWords(given)} given, ${lengthWords(wanted)} wanted.`;
  const places = [...given.keys()].filter((at) => given[at] !== wanted[at]).map((at) => at + 1);
  if (places.length === given.length) return "All bytes differ.";
  if (places.length > 4) return `${places.length} of ${given.length} bytes differ.`;
  return places.length === 1 ? `Byte ${places[0]} differs.` : `Bytes ${places.slice(0, -1).join(", ")} and ${places.at(-1)} differ.`;
}

/** @param {Uint8Array} bytes */
const lengthWords = ({ length }) => (length === 1 ? "1 byte is" : `${length || "No"} bytes are`);
