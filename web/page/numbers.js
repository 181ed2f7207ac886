// Reads lists of bytes, in the notations of programming languages and of programs that print dumps. A list may have
// several readings. The header of a command or a response shows which one is right.

import { bytesOf } from "./bytes.js";

/** @typedef {string[]} Words @typedef {(words: Words) => number[] | null} Reading the bytes, or null if they are none */

const HEX = /^[0-9a-f]+$/i;
const OCTAL = /^[0-7]{3}$/;

/**
 * Returns the reading of words that all have a form, each of which stands for some bytes.
 * @param {RegExp} form @param {(word: string) => number | number[]} read @returns {Reading}
 */
const each = (form, read) => (words) => (words.every((it) => form.test(it)) ? bytesIn(words.flatMap(read)) : null);

/** @param {number[]} numbers each may be signed */
const bytesIn = (numbers) => (numbers.every((it) => it >= -128 && it < 256) ? numbers.map((it) => it & 255) : null);

/** @param {string} word */
const bare = (word) => word.replace(/^0x/i, "");

/** @param {string} hex */
const pairs = (hex) => Array.from(bytesOf(hex));

/** @param {number} number */
const lowFirst = (number) => (number > 0xffff ? -1000 : [number & 255, number >> 8]);

/** @param {Words} words @returns {number[] | null} */
function hexadecimal(words) {
  const digits = words.map(bare);
  return digits.every((it) => HEX.test(it) && it.length % 2 === 0) ? digits.flatMap(pairs) : null;
}

/**
 * Reads `0180`: words of two, four or eight bytes, with the lowest byte first.
 * @param {Words} words @returns {number[] | null}
 */
function swapped(words) {
  const fit = words.every((it, at) => HEX.test(it) && (at === words.length - 1 ? it.length % 2 === 0 : [4, 8, 16].includes(it.length)));
  return fit ? words.flatMap((it) => pairs(it).reverse()) : null;
}

/** @type {Reading[]} */
export const READINGS = [
  each(/^0x[0-9a-f]{1,2}$/i, (it) => parseInt(it, 16)),
  hexadecimal,
  each(/^-?[0-9]{1,3}$/, Number),
  swapped,
  each(OCTAL, (it) => parseInt(it, 8)),
  each(/^[01][0-7]{5}$/, (it) => lowFirst(parseInt(it, 8))),
  each(/^[01]{8}$/, (it) => parseInt(it, 2)),
  each(/^[0-9a-f]{1,2}$/i, (it) => parseInt(it, 16)),
  each(/^[0-9]{1,5}$/, (it) => lowFirst(Number(it))),
];

const ESCAPES = ["\\0", "\\a", "\\b", "\\t", "\\n", "\\v", "\\f", "\\r"];
const OF_ESCAPES = [0, 7, 8, 9, 10, 11, 12, 13];

/**
 * Reads `200 001  \0`, which od -c and hexdump -c print.
 * @param {Words} columns
 */
export const characters = (columns) => bytesIn(columns.map((it) => {
  const word = it.trim();
  if (OCTAL.test(word)) return parseInt(word, 8) & 255;
  if (ESCAPES.includes(word)) return OF_ESCAPES[ESCAPES.indexOf(word)];
  return word.length <= 1 ? (word || " ").charCodeAt(0) & 255 : -1000;
}));

/**
 * Returns the bytes that words may stand for, likeliest first.
 * @param {Words} words
 */
export const readingsOf = (words) => (words.length ? READINGS.flatMap((read) => {
  const bytes = read(words);
  return bytes ? [bytes] : [];
}) : []);

const REMARKS = /\/\*[^]*?\*\/|\/\/[^\n]*|#[^\n]*/g;
/** The key of a byte in an object of JavaScript, and the type of a byte in Rust. */
const DECORATION = /^"?[0-9]+"?:(?=.)|u8$/g;

/**
 * Returns the words of a list, without remarks and without what a language adds to a byte.
 * @param {string} text
 */
export const wordsOf = (text) =>
  text.replace(REMARKS, " ").replaceAll('": ', '":').replace(/[\s,;]+/g, " ").split(" ").filter(Boolean).map((it) => it.replace(DECORATION, ""));

const NAMED = { n: 10, r: 13, t: 9, a: 7, b: 8, f: 12, v: 11, 0: 0, e: 27 };

/**
 * Returns the bytes of a text with escapes, such as `\x80\001`. After `\0`, Rust has no more octal digits.
 * @param {string} text @param {number} octalDigits
 */
export function unescaped(text, octalDigits) {
  const form = octalDigits > 1 ? /\\(?:x([0-9a-f]{2})|([0-7]{1,3})|([^]))|([^])/gi : /\\(?:x([0-9a-f]{2})|([0-7])|([^]))|([^])/gi;
  return Array.from(text.matchAll(form), ([, hex, octal, name, other]) => {
    if (hex || octal) return parseInt(hex ?? octal, hex ? 16 : 8) & 255;
    const named = /** @type {Record<string, number>} */ (NAMED)[name];
    return (named ?? (name ?? other).charCodeAt(0)) & 255;
  });
}
