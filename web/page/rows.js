// The visible rows of the editor: each line in colours, and next to it its number and its result. Unchanged rows remain,
// so that an edit creates only a few elements. In a short script, lines that are too wide are wrapped at their spaces,
// as the browser wraps them in the text area.

import { colouredLine, saidIn } from "./coloured.js";
import { byId, make } from "./dom.js";

/**
 * @typedef {{text: string, isBad: boolean}} Outcome
 * @typedef {{
 *   fault: (line: number) => import("./device.js").LineFault | undefined,
 *   outcome: (line: number) => Outcome | null, isChosen: (line: number) => boolean,
 * }} Told what a row shows about its line
 * @typedef {{top: number, left: number, width: number, height: number}} View the visible part of the text
 * @typedef {{key: string, row: HTMLElement, side: HTMLElement}} Shown
 */

export const ROW = 20;
export const TOP = 8;
const MARGIN_ROWS = 6;
const LONG_LINE = 1500;
const COLUMNS_BEFORE = 100;
/** The columns that the edges of a text next to a line take. */
const EDGES = 4;
/** A script with more lines, or with a longer line, is not wrapped. */
const MOST_WRAPPED = 2000;
const PLAIN = /^[ -~]*$/;

export class Rows {
  /** @param {Told} told */
  constructor(told) {
    this.told = told;
    this.columnWidth = 7.5;
    /** The width of the left edge of the text, which contains no text. */
    this.padding = 0;
    /** @type {Map<number, Shown>} */
    this.shown = new Map();
    this.isWrapped = false;
    /**
     * The first row of each line and the number of all rows, or null if each line has one row.
     * @type {number[] | null}
     */
    this.firsts = null;
    /** What `firsts` was computed for. */
    this.wrapped = { lines: /** @type {string[]} */ ([]), width: 0 };
    /**
     * The number of rows of each wide line at this width.
     * @type {Map<string, number>}
     */
    this.counts = new Map();
  }

  /**
   * Decides whether lines are wrapped. This comes before the browser lays them out.
   * @param {string[]} lines
   */
  take(lines) {
    this.isWrapped = lines.length <= MOST_WRAPPED && lines.every((it) => it.length <= LONG_LINE);
    byId("editor").classList.toggle("wraps", this.isWrapped);
  }

  /**
   * Finds the rows of each line.
   * @param {string[]} lines @param {number} width
   */
  wrap(lines, width) {
    const { wrapped } = this;
    if (wrapped.lines === lines && wrapped.width === width) return;
    if (wrapped.width !== width) this.counts.clear();
    this.wrapped = { lines, width };
    this.firsts = null;
    if (!this.isWrapped) return;
    const columns = Math.floor((width - this.padding - parseFloat(getComputedStyle(byId("text")).paddingRight)) / this.columnWidth);
    const wide = lines.filter((it) => it.length > columns || !PLAIN.test(it));
    if (!wide.length) return;
    this.#count(wide.filter((it) => !this.counts.has(it)));
    const firsts = [0];
    for (const text of lines) firsts.push(firsts[firsts.length - 1] + (this.counts.get(text) ?? 1));
    this.firsts = firsts;
  }

  /**
   * Has the browser wrap lines, and counts their rows.
   * @param {string[]} lines
   */
  #count(lines) {
    const probes = [...new Set(lines)].map((text) => ({ text, row: make("div", { class: "row probe" }, text) }));
    byId("texts").append(...probes.map(({ row }) => row));
    for (const { text, row } of probes) this.counts.set(text, Math.max(1, Math.round(row.offsetHeight / ROW)));
    for (const { row } of probes) row.remove();
  }

  /**
   * Returns the first row of a line.
   * @param {number} line
   */
  firstOf(line) {
    return this.firsts ? this.firsts[Math.min(line, this.firsts.length - 1)] : line;
  }

  /**
   * Returns the line that contains a row.
   * @param {number} row
   */
  lineOf(row) {
    const { firsts } = this;
    if (!firsts) return row;
    let low = 0;
    let high = firsts.length - 1;
    while (low < high) {
      const middle = (low + high + 1) >> 1;
      if (firsts[middle] <= row) low = middle;
      else high = middle - 1;
    }
    return low;
  }

  /** @param {string[]} lines @param {View} view */
  paint(lines, view) {
    this.wrap(lines, view.width);
    const top = Math.max(0, Math.floor((view.top - TOP) / ROW) - MARGIN_ROWS);
    const first = this.lineOf(top);
    const last = Math.min(lines.length, this.lineOf(top + Math.ceil(view.height / ROW) + 2 * MARGIN_ROWS) + (this.firsts ? 1 : 0));
    const before = this.shown;
    this.shown = new Map();
    for (let line = first; line < last; line += 1) this.shown.set(line, this.#shownLine(line, lines[line], view, before.get(line)));
    for (const [line, { row, side }] of before) {
      if (this.shown.get(line)?.row === row) continue;
      row.remove();
      side.remove();
    }
    byId("texts").style.transform = `translate(${-view.left}px, ${TOP - view.top}px)`;
    byId("margins").style.transform = `translateY(${TOP - view.top}px)`;
  }

  /** @param {number} line @param {string} text @param {View} view @param {Shown | undefined} before */
  #shownLine(line, text, view, before) {
    const outcome = this.told.outcome(line);
    const isChosen = this.told.isChosen(line);
    const from = text.length > LONG_LINE ? this.#firstColumn(view) : 0;
    const top = this.firstOf(line);
    const key = `${isChosen} ${from} ${top} ${view.width} ${outcome?.isBad} ${outcome?.text} ${text}`;
    if (before?.key === key) return before;
    const row = this.#row(line, text, isChosen, from);
    const said = text.length <= LONG_LINE ? saidIn(text) : "";
    const side = sideOf(line, outcome, isChosen, isChosen && !this.#fits(text, said, outcome, view) ? "" : said);
    side.classList.toggle("tight", isChosen && text.length <= LONG_LINE && !this.#fits(text, "", outcome, view));
    for (const it of [row, side]) it.style.top = `${top * ROW}px`;
    byId("texts").append(row);
    byId("margins").append(side);
    return { key, row, side };
  }

  /**
   * Returns whether the text that a hex word encodes fits next to its line. If not, this text covers the end of the
   * line, unless the line is chosen.
   * @param {string} text @param {string} said @param {Outcome | null} outcome @param {View} view
   */
  #fits(text, said, outcome, view) {
    const columns = Math.floor((view.width - this.padding) / this.columnWidth);
    const used = text.length > columns ? text.lastIndexOf(" ", columns) : text.length;
    return used + said.length + (outcome?.isBad ? outcome.text.length + EDGES : EDGES) <= columns;
  }

  /**
   * Returns the first column of a long line that is drawn. It is a multiple of a hundred, so that it
   * seldom changes.
   * @param {View} view
   */
  #firstColumn(view) {
    const column = Math.floor(view.left / this.columnWidth);
    return Math.max(0, column - (column % COLUMNS_BEFORE) - COLUMNS_BEFORE);
  }

  /** @param {number} line @param {string} text @param {boolean} isChosen @param {number} from */
  #row(line, text, isChosen, from) {
    const kind = isChosen ? "row chosen" : "row";
    if (text.length <= LONG_LINE) return make("div", { class: kind }, colouredLine(text, this.told.fault(line)));
    const part = make("span", { class: text.startsWith("#") ? "t-comment" : false }, text.slice(from, from + LONG_LINE));
    part.style.marginLeft = `${from * this.columnWidth}px`;
    return make("div", { class: kind }, part);
  }

  /**
   * Returns the place below a column of a line, in the visible part of the text.
   * @param {number} line @param {number} column @param {View} view
   */
  placeBelow(line, column, view) {
    const row = this.firsts ? this.shown.get(line)?.row : undefined;
    const box = row && column > 0 ? boxAt(row, column - 1) : null;
    const left = box ? box.right : this.padding + column * this.columnWidth;
    const below = box ? box.top + ROW : ROW;
    return { left: left - view.left, top: TOP + this.firstOf(line) * ROW - view.top + below + 2 };
  }

  /**
   * Returns the line and the column of the piece of text at a point of the window.
   * @param {number} x @param {number} y
   */
  pieceAt(x, y) {
    for (const [line, { row }] of this.shown) {
      const box = row.getBoundingClientRect();
      if (y < box.top || y >= box.bottom) continue;
      let column = 0;
      for (const piece of row.childNodes) {
        const boxes = piece instanceof Element ? [...piece.getClientRects()] : [];
        if (boxes.some((it) => x >= it.left && x < it.right && y >= it.top && y < it.bottom)) return { line, column };
        column += piece.textContent?.length ?? 0;
      }
    }
    return null;
  }
}

/**
 * Returns where a character of a row is, seen from the row.
 * @param {HTMLElement} row @param {number} column
 */
function boxAt(row, column) {
  const walk = document.createTreeWalker(row, NodeFilter.SHOW_TEXT);
  let left = column;
  for (let text = walk.nextNode(); text; text = walk.nextNode()) {
    const { length } = text.textContent ?? "";
    if (left < length) {
      const range = document.createRange();
      range.setStart(text, left);
      range.setEnd(text, left + 1);
      const box = range.getBoundingClientRect();
      const outer = row.getBoundingClientRect();
      return { right: box.right - outer.left, top: Math.floor((box.top - outer.top) / ROW) * ROW };
    }
    left -= length;
  }
  return null;
}

/** @param {number} line @param {Outcome | null} outcome @param {boolean} isChosen @param {string} said */
function sideOf(line, outcome, isChosen, said) {
  const kind = outcome?.isBad ? "number bad" : outcome?.text ? "number good" : "number";
  return make(
    "div", { class: isChosen ? "side chosen" : "side" }, make("span", { class: kind }, String(line + 1)),
    said ? make("span", { class: "said", title: said }, said) : null,
    outcome?.isBad ? make("span", { class: "out bad", title: outcome.text }, outcome.text) : null,
  );
}
