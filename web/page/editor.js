// The editor: a text area with transparent text, above the visible rows of the same text. Sizes are
// read before elements are changed, because the first read after a change makes the browser compute
// the layout again.

import { refusal, tooMuch } from "./bounds.js";
import { faultPlace, faultWords, meantLine } from "./coloured.js";
import { byId, cut, make } from "./dom.js";
import { formShown, meaningAt } from "./form.js";
import { completionOf, tokensOf } from "./completion.js";
import { countWords, pastedText } from "./pasted.js";
import { ROW, Rows, TOP } from "./rows.js";
import { forAWhile, inTurns } from "./turns.js";

/**
 * @typedef {import("./rows.js").Told & {
 *   stateAtLine: (line: number) => import("./state.js").State | null, edited: () => void,
 *   moved: (line: number) => void, newText: () => () => boolean, refused: (words: string) => void,
 *   bufferOf: (line: number) => Uint8Array | null,
 * }} Told what the editor asks the page for, and what it reports to the page
 * @typedef {import("./taken.js").Found} Found
 */

const FAULT_WIDTH = 220;
const MOST_MEANT = 60;
const CHOICES = { width: 440, height: 208, row: 24, edges: 10 };
const EDGE = 8;
const PAUSE = 700;
const SLICE = 16;
const PASTE_PART = "Paste a part of it.";
/** Chromium inserts each line on its own, so that a thousand lines take a second. */
const MOST_INSERTED = 50;

export class Editor {
  /** @param {import("./device.js").Chip} chip @param {Told} told */
  constructor(chip, told) {
    this.chip = chip;
    this.told = told;
    /** @type {HTMLTextAreaElement} */
    this.area = byId("text");
    this.rows = new Rows(told);
    this.lines = [""];
    this.formOf = "";
    this.pause = 0;
    /** The line that was probably meant by the line with the caret. */
    this.meant = "";
    /** @type {import("./rows.js").View} */
    this.view = { top: 0, left: 0, width: 0, height: 0 };
    /** @type {import("./completion.js").Completion | null} */
    this.completion = null;
    this.selected = 0;
    this.#listen();
  }

  #listen() {
    const { area } = this;
    area.addEventListener("input", () => this.#input());
    area.addEventListener("scroll", () => this.paint(), { passive: true });
    area.addEventListener("keydown", (event) => this.#key(event));
    area.addEventListener("blur", () => this.closeChoices());
    area.addEventListener("mousemove", (event) => this.#hover(event), { passive: true });
    area.addEventListener("paste", (event) => this.#paste(event));
    document.addEventListener("selectionchange", () => document.activeElement === area && this.#caretMoved());
    byId("choices").addEventListener("mousedown", (/** @type {MouseEvent} */ event) => {
      event.preventDefault();
      const item = event.target instanceof Element ? event.target.closest("li") : null;
      if (item) this.#accept(Number(item.dataset.at));
    });
    new ResizeObserver(() => this.#measure()).observe(area);
  }

  #measure() {
    const probe = make("span", { class: "row" }, "0".repeat(100));
    probe.style.cssText = "min-width: 0; width: max-content; padding: 0";
    byId("texts").append(probe);
    this.rows.columnWidth = probe.getBoundingClientRect().width / 100 || this.rows.columnWidth;
    probe.remove();
    this.rows.padding = parseFloat(getComputedStyle(this.area).paddingLeft);
    this.rows.wrapped.width = 0;
    if (this.view.height) this.paint();
    else this.reveal(this.caret().line);
  }

  /** Measures which part of the text is visible, and makes the layers end at the scroll bars. */
  #look() {
    const { scrollTop, scrollLeft, clientWidth, clientHeight, offsetWidth, offsetHeight } = this.area;
    const isSame = clientWidth === this.view.width && clientHeight === this.view.height;
    this.view = { top: scrollTop, left: scrollLeft, width: clientWidth, height: clientHeight };
    if (isSame) return;
    for (const name of ["texts", "margins"]) {
      const layer = byId(name).parentElement;
      layer.style.right = `${offsetWidth - clientWidth}px`;
      layer.style.bottom = `${offsetHeight - clientHeight}px`;
    }
  }

  get text() {
    return this.area.value;
  }

  /** @param {string} text */
  set text(text) {
    this.lines = text.split("\n");
    this.rows.take(this.lines);
    this.area.value = text;
    this.area.setSelectionRange(0, 0);
    this.area.scrollTop = 0;
    this.area.scrollLeft = 0;
    this.closeChoices();
  }

  #input() {
    this.lines = this.area.value.split("\n");
    this.rows.take(this.lines);
    this.told.edited();
    this.#openChoices(false);
  }

  /** Returns the line and column of the caret, counted from 0. */
  caret() {
    const { lines } = this;
    let line = 0;
    let column = this.area.selectionStart;
    while (line < lines.length - 1 && column > lines[line].length) {
      column -= lines[line].length + 1;
      line += 1;
    }
    return { line, column };
  }

  /**
   * Turns pasted buffers, and what other programs print about a TPM, into commands, if they are pasted at the start of
   * a line; buffers also after its `cmd`. The browser pastes any other text.
   * @param {ClipboardEvent} event
   */
  #paste(event) {
    const { line, column } = this.caret();
    const text = event.clipboardData?.getData("text") ?? "";
    const work = pastedText(this.lines[line].slice(0, column), text);
    const found = forAWhile(work, SLICE);
    if (found.done && found.value.text === text && !this.#refuses(found.value)) return;
    event.preventDefault();
    if (found.done) this.#put(found.value);
    else this.#putLater(work);
  }

  /** @param {Generator<void, Found>} work */
  async #putLater(work) {
    const found = await inTurns(work, this.told.newText());
    if (found) this.#put(found);
  }

  /** @param {Found} found */
  #put(found) {
    if (!this.#refuses(found)) insertText(this.area, found.text);
  }

  /**
   * Returns whether the script would be too long with a pasted text. If so, says it.
   * @param {Found} found
   */
  #refuses({ text, count }) {
    const { value, selectionStart, selectionEnd } = this.area;
    const whole = value.slice(0, selectionStart) + text + value.slice(selectionEnd);
    const fault = !text && count ? refusal("The pasted text has", countWords(count), PASTE_PART)
      : tooMuch("With the pasted text the script has", whole, PASTE_PART);
    if (fault) this.told.refused(fault);
    return fault !== "";
  }

  #caretMoved() {
    const { line } = this.caret();
    this.told.moved(line);
    this.showForm();
    this.#showUnder();
  }

  /**
   * Moves the caret to the end of a line, unless it already is in the line, and shows the line.
   * @param {number} line
   */
  goTo(line) {
    if (document.activeElement !== this.area || this.caret().line !== line) {
      let at = 0;
      for (let before = 0; before < line; before += 1) at += this.lines[before].length + 1;
      this.area.setSelectionRange(at, at);
      this.area.scrollLeft = 0;
    }
    this.reveal(line);
    this.showForm();
    this.#showUnder();
  }

  /** @param {number} line */
  reveal(line) {
    const { area } = this;
    this.#look();
    this.rows.wrap(this.lines, this.view.width);
    const top = TOP + this.rows.firstOf(line) * ROW;
    const low = area.scrollTop + 2 * ROW;
    const high = area.scrollTop + area.clientHeight - 4 * ROW;
    if (top < low) area.scrollTop = Math.max(0, top - 2 * ROW);
    else if (top > high) area.scrollTop = top - area.clientHeight + 4 * ROW;
    this.paint();
  }

  // Painting.

  paint() {
    this.#look();
    this.rows.paint(this.lines, this.view);
    this.#showUnder();
  }

  /**
   * Announces the result of the line with the caret to screen readers, after a pause.
   * @param {number} line
   */
  #sayLater(line) {
    clearTimeout(this.pause);
    this.pause = setTimeout(() => {
      const fault = this.told.fault(line);
      const words = fault ? faultWords(fault) : this.told.outcome(line)?.text;
      byId("said").textContent = words ? `Line ${line + 1}: ${words}.` : "";
      this.area.setAttribute("aria-invalid", String(fault !== undefined));
    }, PAUSE);
  }

  /** Shows the fault of the line with the caret, below that line. */
  #showUnder() {
    const under = byId("under");
    const { line, column } = this.caret();
    const isHere = document.activeElement === this.area;
    if (isHere) this.#sayLater(line);
    const fault = isHere ? this.told.fault(line) : undefined;
    const isTyping = fault?.name === "Missing" && column === this.lines[line]?.length && this.completion !== null;
    this.meant = fault && !isTyping ? meantLine(this.lines[line], fault) : "";
    under.hidden = !fault || isTyping;
    if (!fault || isTyping) return;
    const at = faultPlace(this.lines[line], fault).from;
    const words = faultWords(fault, at >= this.lines[line].length && fault.name !== "TooLong");
    under.textContent = this.meant ? `Did you mean ${cut(this.meant, MOST_MEANT)}? Tab writes it.` : words;
    const { left, top } = this.rows.placeBelow(line, at, this.view);
    under.style.left = `${Math.max(EDGE, Math.min(left, this.view.width - FAULT_WIDTH))}px`;
    under.style.top = `${top}px`;
  }

  /** Writes the line that was probably meant. */
  #takeMeant() {
    const { line, column } = this.caret();
    const start = this.area.selectionStart - column;
    this.area.setSelectionRange(start, start + this.lines[line].length);
    insertText(this.area, this.meant);
  }

  /**
   * Says what the word under the pointer means.
   * @param {MouseEvent} event
   */
  #hover({ clientX, clientY }) {
    const piece = this.rows.pieceAt(clientX, clientY);
    const words = piece ? meaningAt(this.lines[piece.line], piece.column, this.told.bufferOf(piece.line)) : "";
    if (this.area.title !== words) this.area.title = words;
  }

  /**
   * Writes a line before another one, as if by typing.
   * @param {string} text @param {number} line
   */
  insertLine(text, line) {
    let at = 0;
    for (let before = 0; before < line; before += 1) at += this.lines[before].length + 1;
    this.area.setSelectionRange(at, at);
    insertText(this.area, `${text}\n`);
    this.area.setSelectionRange(at, at);
    this.reveal(line);
  }

  /** Shows the form of the command at the caret, and highlights the field at the caret. */
  showForm() {
    const { line, column } = this.caret();
    const text = this.lines[line] ?? "";
    if (this.formOf === `${column} ${text}`) return;
    this.formOf = `${column} ${text}`;
    const form = byId("form");
    form.replaceChildren(...formShown(text, column));
    requestAnimationFrame(() => {
      const here = form.querySelector(".on");
      form.scrollTop = here ? here.offsetTop - form.clientHeight + here.offsetHeight + EDGE : 0;
    });
  }

  // Completion.

  /** @param {boolean} isAsked */
  #openChoices(isAsked) {
    const { line, column } = this.caret();
    const text = this.lines[line] ?? "";
    const isAtEnd = column === text.length;
    const isOpened = isAsked || (isAtEnd && text.length > 0);
    const state = isOpened && isAtEnd ? this.told.stateAtLine(line) : null;
    const found = state ? completionOf(this.chip, text, state) : null;
    const typed = found ? text.slice(found.from) : "";
    const isSaid = found?.choices.some((it) => it.text === typed) && !isAsked;
    if (!found || !found.choices.length || isSaid) return this.closeChoices();
    this.completion = found;
    this.selected = 0;
    this.#drawChoices(line);
  }

  /** @param {number} line */
  #drawChoices(line) {
    const list = byId("choices");
    const { completion } = this;
    if (!completion) return;
    list.replaceChildren(...completion.choices.map((it, at) => make(
      "li", { role: "option", id: `choice-${at}`, "data-at": at, "aria-selected": String(at === this.selected) },
      make("b", {}, cut(it.text.trim(), 40)), make("span", {}, it.words),
    )));
    list.hidden = false;
    byId("under").hidden = true;
    const height = Math.min(CHOICES.height, completion.choices.length * CHOICES.row + CHOICES.edges);
    const width = Math.min(CHOICES.width, this.view.width - 2 * EDGE);
    const { left, top: below } = this.rows.placeBelow(line, completion.from, this.view);
    const isLow = below + height > this.view.height && below > height + ROW;
    list.style.top = `${isLow ? below - ROW - 4 - height : below}px`;
    list.style.left = `${Math.max(EDGE, Math.min(left, this.view.width - width - EDGE))}px`;
    this.area.setAttribute("aria-activedescendant", `choice-${this.selected}`);
  }

  closeChoices() {
    this.completion = null;
    byId("choices").hidden = true;
    this.area.removeAttribute("aria-activedescendant");
  }

  /** @param {number} by */
  #select(by) {
    const count = this.completion?.choices.length ?? 0;
    this.selected = (this.selected + by + count) % count;
    this.#drawChoices(this.caret().line);
    byId(`choice-${this.selected}`).scrollIntoView({ block: "nearest" });
  }

  /** @param {number} at */
  #accept(at) {
    const { completion, area } = this;
    const found = completion?.choices[at];
    if (!completion || !found) return;
    const { column } = this.caret();
    const start = area.selectionStart - column + completion.from;
    const text = this.lines[this.caret().line].slice(0, completion.from) + found.text;
    const isMore = found.isMore && needsMore(text);
    area.setSelectionRange(start, area.selectionStart);
    this.closeChoices();
    insertText(area, found.text + (isMore ? " " : ""));
  }

  /** @param {KeyboardEvent} event */
  #key(event) {
    if (event.key === " " && event.ctrlKey) {
      event.preventDefault();
      this.#openChoices(true);
    }
    if (event.key === "Tab" && !event.shiftKey && this.meant && !byId("under").hidden) {
      event.preventDefault();
      this.#takeMeant();
    }
    if (!this.completion || event.altKey || event.ctrlKey || event.metaKey) return;
    const by = { ArrowDown: 1, ArrowUp: -1 }[event.key];
    if (by) this.#select(by);
    else if (event.key === "Enter" || event.key === "Tab") this.#accept(this.selected);
    else if (event.key === "Escape") this.closeChoices();
    else return;
    event.preventDefault();
    event.stopPropagation();
  }
}

/**
 * Replaces the selected text as if by typing, so that the browser can undo it.
 * @param {HTMLTextAreaElement} area @param {string} text
 */
function insertText(area, text) {
  area.focus();
  const { value, selectionStart, selectionEnd } = area;
  if (isLong(text) && document.execCommand("insertHTML", false, escaped(text))) {
    if (area.value === value.slice(0, selectionStart) + text + value.slice(selectionEnd)) return;
    area.value = value;
    area.setSelectionRange(selectionStart, selectionEnd);
  } else if (document.execCommand("insertText", false, text)) {
    return;
  }
  area.setRangeText(text, area.selectionStart, area.selectionEnd, "end");
  area.dispatchEvent(new Event("input"));
}

/** @param {string} text */
const isLong = (text) => text.split("\n", MOST_INSERTED).length === MOST_INSERTED;

/** @param {string} text */
const escaped = (text) => text.replace(/&/g, "&amp;").replace(/</g, "&lt;").replace(/>/g, "&gt;");

/**
 * Returns whether the command in this line lacks words.
 * @param {string} line
 */
function needsMore(line) {
  const { tokens, command, entries } = tokensOf(line.replace(/^do /, ""));
  if (!command) return true;
  const wanted = 1 + command.handles.length + entries + command.parameters.length;
  const isEntryWanted = entries < command.handles.filter((it) => it.isAuthorized).length;
  return tokens.length < wanted || isEntryWanted;
}
