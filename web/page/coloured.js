// Shows a line of a script in colours, and describes its fault in words.

import { bytesOf } from "./bytes.js";
import { tokensOf } from "./completion.js";
import { make } from "./dom.js";
import { facts } from "./facts.js";
import { isPrintable, saidBytes } from "./words.js";

/** @typedef {import("./device.js").LineFault} LineFault */

export const LINE_WORD = /^(do|cmd|wait|loc|entropy|power)(?= |$)/;
const FAULT_WORDS = {
  BadName: "no such name", BadField: "not what is wanted", Missing: "more is wanted",
  Range: "too large", TooLong: "too long",
};

/**
 * Describes a fault in words. With `isAtEnd`, the line ends at the fault.
 * @param {LineFault} fault
 */
export function faultWords({ name, column, wanted }, isAtEnd = false) {
  if (isAtEnd && wanted) return `more is wanted: ${wanted}`;
  const words = FAULT_WORDS[/** @type {keyof typeof FAULT_WORDS} */ (name)] ?? name;
  const place = column ? `column ${column}: ` : "";
  return wanted ? `${place}${words}; wanted: ${wanted}` : `${place}${words}`;
}

const MOST_SLIPS = 2;
const OTHER_NAME = /^tpm2?_(?:cc_)?/;

/**
 * Returns the line that was probably meant, if a name in it is wrong and a command has nearly this name.
 * @param {string} text @param {LineFault} fault
 */
export function meantLine(text, { name }) {
  const [word, ...rest] = text.replace(/^do +/i, "").split(" ");
  const wanted = word.toLowerCase().replace(OTHER_NAME, "").replace(/_/g, "");
  if (name !== "BadName" || wanted.length < 4) return "";
  const slips = facts.commands.map((it) => ({ name: it.name, count: slipsIn(wanted, it.name.toLowerCase().replace(/_/g, "")) }));
  const best = slips.reduce((one, other) => (other.count < one.count ? other : one));
  return best.count <= MOST_SLIPS ? ["do", best.name, ...rest].join(" ") : "";
}

/**
 * Returns how many letters must be added, removed or replaced to make one word of the other.
 * @param {string} one @param {string} other
 */
function slipsIn(one, other) {
  if (Math.abs(one.length - other.length) > MOST_SLIPS) return MOST_SLIPS + 1;
  let before = Array.from({ length: other.length + 1 }, (_, at) => at);
  for (let row = 1; row <= one.length; row += 1) {
    const now = [row];
    for (let at = 1; at <= other.length; at += 1) {
      now.push(Math.min(before[at] + 1, now[at - 1] + 1, before[at - 1] + Number(one[row - 1] !== other[at - 1])));
    }
    before = now;
  }
  return before[other.length];
}

const MOST_SAID = 64;
const TEXT_OF_TOKEN = /^(?:pw:)?((?:[0-9a-f]{2}){3,})$/;

/**
 * Returns the texts that the passwords and buffers of a command encode.
 * @param {string} text
 */
export function saidIn(text) {
  if (!text.startsWith("do ")) return "";
  const { tokens, command } = tokensOf(text.slice(3));
  const found = new Set();
  for (const { sort, field, text: token } of tokens) {
    const isBytes = sort === "entry" || (sort === "parameter" && command?.parameters[field]?.kind === "Buffer");
    const hex = isBytes && token.length <= 2 * MOST_SAID ? TEXT_OF_TOKEN.exec(token)?.[1] : undefined;
    if (hex && isPrintable(bytesOf(hex))) found.add(saidBytes(bytesOf(hex)));
  }
  return [...found].join(" ");
}

/**
 * Returns a fault as `tpmsim check` prints it.
 * @param {LineFault} fault
 */
export function faultName({ name, column, wanted }) {
  return `${name}${column ? ` ${column}` : ""}${wanted ? `: ${wanted}` : ""}`;
}

/**
 * Returns the columns of a fault in its line, counted from 0.
 * @param {string} text @param {LineFault} fault
 */
export function faultPlace(text, { column, name }) {
  const word = LINE_WORD.exec(text);
  const front = word ? word[0].length + 1 : 0;
  if (name === "Missing" || name === "TooLong") return { from: text.length, to: text.length };
  const from = Math.min(text.length, front + Math.max(0, column - 1));
  const end = text.indexOf(" ", from);
  return { from, to: end < 0 ? text.length : end };
}

/**
 * Returns the elements of a line in colours.
 * @param {string} text @param {LineFault | undefined} fault
 */
export function colouredLine(text, fault) {
  if (text.startsWith("#")) return [make("span", { class: "t-comment" }, text)];
  const word = LINE_WORD.exec(text)?.[0] ?? "";
  const wrong = fault ? faultPlace(text, fault) : null;
  const pieces = [{ text: word, at: 0, kind: "t-word" }];
  const rest = text.slice(word.length + 1);
  if (word === "do" && rest) {
    for (const it of tokensOf(rest).tokens) pieces.push({ text: it.text, at: 3 + it.at, kind: `t-${it.sort}` });
  } else {
    pieces.push({ text: text.slice(word.length), at: word.length, kind: "" });
  }
  return spaced(pieces, wrong);
}

/** @param {{text: string, at: number, kind: string}[]} pieces @param {{from: number, to: number} | null} wrong */
function spaced(pieces, wrong) {
  const found = [];
  let at = 0;
  for (const it of pieces) {
    if (it.at > at) found.push(" ".repeat(it.at - at));
    const isWrong = wrong !== null && it.at >= wrong.from && it.at < Math.max(wrong.to, wrong.from + 1);
    const kinds = [it.kind, isWrong ? "t-fault" : ""].join(" ").trim();
    if (it.text) found.push(make("span", { class: kinds || false }, it.text));
    at = it.at + it.text.length;
  }
  return found;
}
