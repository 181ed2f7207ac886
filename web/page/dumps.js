// Reads the rows of dumps with offsets, such as those of xxd, hexdump, od, libtss2 and Linux.

import { characters, READINGS } from "./numbers.js";

const OFFSET = /(?<=^|[\s\]:])(?:0x)?([0-9a-f]{4,16})(:?)(?=\s|$)/gi;
const WORD = /^-?[0-9a-f]+$/i;
/** The bytes of a row of Wireshark or tshark, up to the column of the characters. */
const SPACED = /^ {2,3}((?:[0-9a-f]{2} )+) *(?:(?<=^ {2}\S.{49})|(?<=^ {3}\S.{49}))/i;
const DIGITS = { 16: /^[0-9a-f]+$/i, 8: /^[0-7]+$/, 10: /^[0-9]+$/ };
const MOST_OFFSETS = 6;
const MOST_ROW = 8192;
/** The largest distance of two rows, and with a line `*` between them. */
const MOST_BETWEEN = 64;
const MOST_REPEATED = 4096;
const COLUMN = 4;
export const TAGS = new Set([0x8001, 0x8002, 0x00c4]);
const ALL_READINGS = [...READINGS, characters];

/**
 * What an offset may be, in each base; -1 if it is no number in a base.
 * @param {string} word
 */
const offsetsOf = (word) => Object.entries(DIGITS).map(([base, form]) => (form.test(word) ? parseInt(word, Number(base)) : -1));

/** A row of a dump: its offset, its words, and its columns, which characters() reads. */
class Row {
  /** @param {string} offset @param {boolean} hasColon @param {string} rest what follows the offset in its line */
  constructor(offset, hasColon, rest) {
    this.offset = offset;
    this.offsets = offsetsOf(offset);
    const end = rest.trimEnd().length;
    this.columns = Array.from({ length: Math.ceil(end / COLUMN) }, (_, at) => rest.slice(COLUMN * at, COLUMN * at + COLUMN));
    const front = (SPACED.exec(rest)?.[1] ?? rest.split(/[|>]/)[0]).trim();
    const words = (hasColon ? front.split(/\s{2,}/)[0] : front).split(/\s+/).filter(Boolean);
    const last = words.findIndex((it) => !WORD.test(it));
    this.words = last < 0 ? words : words.slice(0, last);
    /** Whether a line `*` follows. */
    this.isRepeated = false;
  }

  get isFirst() {
    return /^0+$/.test(this.offset);
  }

  /** @param {import("./numbers.js").Reading} reading */
  read(reading) {
    if (!this.words.length && !this.columns.length) return [];
    return reading(reading === characters ? this.columns : this.words);
  }

  /**
   * Returns whether the row can belong to the dump of the row before.
   * @param {Row} last
   */
  follows(last) {
    const most = last.isRepeated ? MOST_REPEATED : MOST_BETWEEN;
    return this.offset.length === last.offset.length && this.offsets.some((it, at) => it > last.offsets[at] && it - last.offsets[at] <= most);
  }

  /** Returns whether the row begins like a command or a response. */
  hasTag() {
    return ALL_READINGS.some((reading) => {
      const bytes = this.read(reading);
      return bytes !== null && bytes.length > 1 && TAGS.has(256 * bytes[0] + bytes[1]);
    });
  }
}

/**
 * Returns the row in a line, which may begin with a program's own words; null if there is none. A row without a row
 * before it begins at offset 0, like a command or a response.
 * @param {string} text @param {Row | undefined} last
 */
export function rowOf(text, last) {
  if (text.length > MOST_ROW) return null;
  let count = 0;
  for (const found of text.matchAll(OFFSET)) {
    count += 1;
    if (count > MOST_OFFSETS) return null;
    const row = new Row(found[1], found[2] !== "", text.slice(/** @type {number} */ (found.index) + found[0].length));
    if ((last && row.follows(last)) || (row.isFirst && row.hasTag())) return row;
  }
  return null;
}

/**
 * Returns the bytes that the rows of a dump may stand for.
 * @param {Row[]} rows
 */
export function readingsOfRows(rows) {
  const found = [];
  for (const base of rows[0].offsets.keys()) {
    if (rows.some((it) => it.offsets[base] < 0)) continue;
    for (const reading of ALL_READINGS) {
      const bytes = readRows(rows, reading, base);
      if (bytes) found.push(bytes);
    }
  }
  return found;
}

/**
 * Returns the bytes of the rows by one notation; null if they do not fit the offsets.
 * @param {Row[]} rows @param {import("./numbers.js").Reading} reading @param {number} base an index of the offsets
 */
function readRows(rows, reading, base) {
  /** @type {number[]} */
  const data = [];
  /** @type {number[] | null} */
  let last = [];
  for (const [at, row] of rows.entries()) {
    const offset = row.offsets[base];
    if (at && rows[at - 1].isRepeated && last.length) {
      for (let from = 0; data.length < offset; from += 1) data.push(last[from % last.length]);
    }
    // the last word was filled with zeros
    if (!row.words.length && data.length > offset) data.length = offset;
    if (data.length !== offset) return null;
    last = row.read(reading);
    if (last === null) return null;
    for (const it of last) data.push(it);
  }
  return data;
}
