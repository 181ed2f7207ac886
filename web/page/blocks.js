// Finds the parts of a text that may be bytes: dumps with offsets, lines of bytes, lists in brackets, texts with
// escapes, and long hex numbers in other lines.

import { readingsOfRows, rowOf } from "./dumps.js";
import { readingsOf, unescaped, wordsOf } from "./numbers.js";

const LIST = /<Buffer ([0-9a-f .mores]{20,65536})>|\[([^[\]{}]{19,65536})\]|\{([^[\]{}]{19,65536})\}/g;
const LEFT_OUT = /\.\.\. [0-9]+ more (?:items|bytes)/;
/** Texts with escapes that begin like a command or a response. */
const LITERAL = /(["'])((?:\\x80|\\200|\\x00\\x[cC]4|\\0\\x[cC]4|\\0+\\304)(?:[^"'\\\n]|\\.|(?!\1)["'])*)\1((?:\s*b?\1(?:[^"'\\\n]|\\.|(?!\1)["'])*\1)*)/g;
const QUOTES = /["']\s*b?["']|["']$|^\s*b?["']/g;
const BARE = /^[0-9a-fx\s,:;-]+$/i;
const SEPARATORS = /[\s,:;]+/g;
const PAIR = "[0-9a-fA-F]{2}";
const RUN = new RegExp(
  `(?<![0-9a-zA-Z])(?:0x)?((?:${PAIR}){10,}|${PAIR}(?:[ :,-]${PAIR}){9,}|0x${PAIR}(?:[ ,]+0x${PAIR}){9,}|${PAIR}${PAIR}(?: ${PAIR}${PAIR}){4,})(?![0-9a-zA-Z])`, "g",
);
const PART = 1 << 8;

/**
 * @typedef {{line: number, readings: number[][], lines: number[][][]}} Block bytes in a text: the line in which they
 *   begin; what they may be, likeliest first; and the readings of each line
 */

/**
 * Returns the blocks of a text, in the order of their lines.
 * @param {string} text @returns {Generator<void, Block[]>}
 */
export function* blocksOf(text) {
  /** @type {Block[]} */
  const found = [];
  const noLiterals = yield* takenOut(text, LITERAL, ofLiteral, found);
  const noLists = yield* takenOut(noLiterals, LIST, ofList, found);
  for (const it of yield* blocksOfLines(noLists)) found.push(it);
  return found.sort((one, other) => one.line - other.line);
}

/** @param {string} text */
const separated = (text) => text.replace(SEPARATORS, " ").trim().split(" ");

/** @param {string} text */
const newlinesIn = (text) => text.split("\n").length - 1;

/**
 * Adds the blocks of a form to those that were found; returns the text without them.
 * @param {string} text @param {RegExp} form @param {(found: RegExpMatchArray) => number[][]} read @param {Block[]} found
 * @returns {Generator<void, string>}
 */
function* takenOut(text, form, read, found) {
  const parts = [];
  let at = 0;
  let line = 1;
  for (const it of text.matchAll(form)) {
    const start = /** @type {number} */ (it.index);
    line += newlinesIn(text.slice(at, start));
    const readings = read(it);
    parts.push(text.slice(at, start), readings.length ? ` ~${"\n".repeat(newlinesIn(it[0]))}` : it[0]);
    if (readings.length) found.push({ line, readings, lines: [] });
    line += newlinesIn(it[0]);
    at = start + it[0].length;
    if (parts.length % PART === 0) yield;
  }
  return parts.join("") + text.slice(at);
}

/** @param {RegExpMatchArray} found */
function ofLiteral([, , first, more]) {
  const text = first + more.trim().replace(QUOTES, "");
  return [unescaped(text, 3), unescaped(text, 1)];
}

/** @param {RegExpMatchArray} found */
const ofList = ([, buffer, list, braces]) => readingsOf(wordsOf((buffer ?? list ?? braces).split(LEFT_OUT)[0]));

/**
 * Joins the lines of a text to blocks.
 * @param {string} text @returns {Generator<void, Block[]>}
 */
function* blocksOfLines(text) {
  /** @type {Block[]} */
  const found = [];
  /** @type {{line: number, rows: NonNullable<ReturnType<typeof rowOf>>[]} | null} */
  let dump = null;
  /** @type {{line: number, words: string[], lines: number[][][]} | null} */
  let bare = null;
  const end = () => {
    if (dump) found.push({ line: dump.line, readings: readingsOfRows(dump.rows), lines: [] });
    if (bare) found.push({ line: bare.line, readings: readingsOf(bare.words), lines: bare.lines });
    dump = null;
    bare = null;
  };
  for (const [at, it] of text.split("\n").entries()) {
    if (at % PART === PART - 1) yield;
    const words = it.trim();
    if (!words) {
      if (dump) end();
      continue;
    }
    const row = rowOf(it, dump?.rows.at(-1));
    if (row) {
      if (!dump || row.isFirst) {
        end();
        dump = { line: at + 1, rows: [] };
      }
      dump.rows.push(row);
    } else if (dump && words === "*") {
      dump.rows[dump.rows.length - 1].isRepeated = true;
    } else if (BARE.test(it)) {
      if (dump) end();
      bare ??= { line: at + 1, words: [], lines: [] };
      const own = separated(it);
      bare.lines.push(readingsOf(own));
      for (const word of own) bare.words.push(word);
    } else {
      end();
      for (const [, run] of it.matchAll(RUN)) found.push({ line: at + 1, readings: readingsOf(separated(run.replaceAll("-", " "))), lines: [] });
    }
  }
  end();
  return found;
}
