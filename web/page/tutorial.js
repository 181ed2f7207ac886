// The tutorial: lessons, each with a complete script, and a task whose completion the page detects.

import { byId, make } from "./dom.js";

/**
 * A lesson. Its task is done when the text matches `matches`, and at least `least` events have this
 * command and this response code. The page then shows `after`, which says where to look.
 * @typedef {{
 *   title: string, text: string[], task: string, script: string[], line: number,
 *   done: {name: string, code: string, least?: number, matches?: string}, after?: string, show: Show,
 * }} Lesson
 * @typedef {{append?: string, replace?: [string, string], image?: boolean}} Show how a task is done
 * @typedef {{
 *   load: (text: string, line: number) => void, outcomes: () => {name: string, code: string}[],
 *   text: () => string, edit: (text: string, line: number) => void, onImage: () => string,
 * }} Shell the functions with which the tutorial reads and changes the page
 */

const IMAGE = "# image ";

export class Tutorial {
  /** @param {Lesson[]} lessons @param {Shell} page */
  constructor(lessons, page) {
    this.lessons = lessons;
    this.page = page;
    this.at = -1;
    this.isDone = false;
    /**
     * The lesson that the user left, and its script at that time.
     * @type {{at: number, text: string} | null}
     */
    this.left = null;
  }

  get isOpen() {
    return this.at >= 0;
  }

  /**
   * Opens the lesson that the user left, or else the lesson `at`.
   * @param {number} at
   */
  open(at) {
    const { left } = this;
    const from = left?.at ?? at;
    const lesson = this.lessons[from];
    if (!lesson) return;
    this.#show(from);
    this.page.load(left?.text ?? scriptOf(lesson), lesson.line - 1);
    byId("lesson-title").focus();
  }

  /**
   * Closes the lesson. Opening a file also closes the lesson, even if the file is the image that
   * the task asks for.
   */
  close() {
    if (!this.isOpen) return;
    const left = { at: this.at, text: this.page.text() };
    this.left = left;
    this.#hide();
    if (this.lessons[left.at].show.image) queueMicrotask(() => this.#reopen(left));
  }

  /**
   * Reopens the lesson that was just closed, if it was closed because the user opened an image.
   * @param {{at: number, text: string}} left
   */
  #reopen({ at, text }) {
    const now = this.page.text();
    if (this.isOpen || now === text || !now.startsWith(IMAGE)) return;
    this.#show(at);
    this.look();
  }

  #finish() {
    this.#hide();
    this.left = null;
  }

  #hide() {
    const isInside = byId("lesson").contains(document.activeElement);
    this.at = -1;
    byId("lesson").hidden = true;
    byId("tutorial").setAttribute("aria-pressed", "false");
    if (isInside) byId("text").focus();
  }

  /** @param {number} at */
  #show(at) {
    const lesson = this.lessons[at];
    this.at = at;
    this.isDone = false;
    this.left = null;
    byId("tutorial").setAttribute("aria-pressed", "true");
    const box = byId("lesson");
    box.hidden = false;
    box.replaceChildren(
      make("h2", { id: "lesson-title", tabindex: -1 }, `${this.at + 1}. ${lesson.title}`),
      ...lesson.text.map((it) => make("p", {}, ...marked(it))),
      make("p", { class: "task" }, ...marked(lesson.task)),
      this.#foot(),
    );
    box.scrollTop = 0;
  }

  #foot() {
    const isLast = this.at === this.lessons.length - 1;
    return make(
      "div", { class: "foot" },
      make("progress", { "aria-hidden": "true", max: this.lessons.length, value: this.at + 1 }),
      make("output", { id: "lesson-done" }, `Step ${this.at + 1} of ${this.lessons.length}.`),
      make("button", { type: "button", disabled: this.at === 0, onclick: () => this.open(this.at - 1) }, "Back"),
      make("button", { type: "button", id: "lesson-show", onclick: () => this.#showTask() }, "Show me"),
      make("button", { type: "button", id: "lesson-next", onclick: () => (isLast ? this.#finish() : this.open(this.at + 1)) }, isLast ? "Finish" : "Next"),
    );
  }

  /** Performs the task. */
  #showTask() {
    const lesson = this.lessons[this.at];
    const { script, show } = lesson;
    const text = shownText(scriptOf(lesson), show, this.page);
    const lines = text.split("\n");
    const before = script.findIndex((line, at) => line !== lines[at]);
    this.page.edit(text, show.image ? 3 : before < 0 ? script.length : before);
  }

  /** Checks whether the task of the lesson is done. */
  look() {
    if (!this.isOpen || this.isDone) return;
    const lesson = this.lessons[this.at];
    if (this.page.text() === scriptOf(lesson)) return;
    this.isDone = isDone(lesson, this.page);
    if (!this.isDone) return;
    const said = byId("lesson-done");
    said.append(` Done. ${lesson.after ?? ""}`.trimEnd());
    said.className = "done";
    said.scrollIntoView({ block: "nearest" });
  }
}

/** @param {Lesson} lesson */
const scriptOf = ({ script }) => `${script.join("\n")}\n`;

/** @param {Lesson} lesson @param {Pick<Shell, "outcomes" | "text">} page */
export function isDone({ done }, page) {
  if (done.matches && !new RegExp(done.matches, "m").test(page.text())) return false;
  const found = page.outcomes().filter((it) => it.name === done.name && it.code === done.code);
  return found.length >= (done.least ?? 1);
}

/**
 * Returns the script of a lesson after its task is done.
 * @param {string} text @param {Show} show @param {Pick<Shell, "onImage">} page
 */
export function shownText(text, show, page) {
  if (show.replace) return text.replace(...show.replace);
  return show.append ? `${text}${show.append}\n` : page.onImage();
}

/**
 * Turns text between backticks into code elements.
 * @param {string} text
 */
export const marked = (text) =>
  text.split("`").map((part, at) => (at % 2 ? make("code", {}, part) : part));
