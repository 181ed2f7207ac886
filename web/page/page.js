// The page: a script, the chosen step, and the device after that step.

import { tooMuch } from "./bounds.js";
import { areSame, hexNumber, hexOf } from "./bytes.js";
import { faultName } from "./coloured.js";
import { Compare } from "./compare.js";
import { revealGroup, showDevice } from "./device_pane.js";
import { byId, cut, make } from "./dom.js";
import { Editor } from "./editor.js";
import { byNumber, facts } from "./facts.js";
import { commandNumber, responseCode } from "./fields.js";
import { download, fragmentOf, opened, scriptOf, stepOf } from "./files.js";
import { showPane } from "./keys.js";
import { plainCommand, plainResponse, responseOf } from "./plain.js";
import { Run } from "./run.js";
import { isAnswer, logOf, onDevice, readingOf, readScript } from "./script.js";
import { measureStep, showNothing, showStep } from "./step_pane.js";
import { drawMarks, showSteps } from "./timeline.js";
import { Told } from "./told.js";
import { forAWhile } from "./turns.js";
import { Tutorial } from "./tutorial.js";
import { handlesIn, usesShown } from "./uses.js";
import { grouped, plural } from "./words.js";

/** @typedef {import("./device.js").Chip} Chip */

const MOST_COMMENT = 600;
const SLICE = { read: 30, first: 30, edit: 3, next: 16 };
const LINK_WAIT = 400;
const OF_FILE = location.protocol === "file:" ? "This is a file of this computer: who opens the link needs tpmsim.html too. " : "";
const LINK_WORDS = `${OF_FILE}The link holds all that the script shows, passwords too.`;
const NOT_ENCRYPTED = { plainCommand: null, plainResponse: null, plainGiven: null };

/** The whole page, made as soon as the device exists. */
export class Page {
  /** @param {Chip} chip */
  constructor(chip) {
    this.chip = chip;
    this.run = new Run(chip);
    this.chosen = -1;
    this.script = readScript(chip, [""]);
    /** Whether `script` is the text of the editor, all of whose lines are read. */
    this.isRead = true;
    /** Whether the chosen step is not shown yet, because it is not played yet. */
    this.isAwaited = false;
    /**
     * What is done as soon as all events are played, unless the user does something else before.
     * @type {(() => void) | null}
     */
    this.later = null;
    /** The number of texts that were loaded, opened or typed: work for an earlier text is given up. */
    this.texts = 0;
    this.told = new Told(JSON.parse(byId("log").textContent));
    /**
     * The current contents of the panes of the step and of the device.
     * @type {unknown[]}
     */
    this.shown = [];
    /** A message about the file that was opened, shown until the script is edited. */
    this.opened = "";
    /** Whether the script is the user's own: typed, opened, or from a link. */
    this.isOwn = false;
    /**
     * The user's own script that another script has replaced, if any.
     * @type {string | null}
     */
    this.former = null;
    /** Whether the message is about the chosen step, and disappears when another step is chosen. */
    this.isPassing = false;
    this.slice = 0;
    this.linkWait = 0;
    /** The script that the last link contains, and its fragment. */
    this.linked = { text: "", fragment: "" };
    this.editor = new Editor(chip, {
      fault: (line) => this.script.faults.get(line),
      outcome: (line) => this.outcome(line),
      isChosen: (line) => this.script.steps[this.chosen]?.line === line,
      stateAtLine: (line) => this.stateAtLine(line),
      newText: () => this.newText(),
      refused: (words) => this.sayShortly(words, true),
      bufferOf: (line) => this.bufferOf(line),
      edited: () => this.edited(),
      moved: (line) => this.moved(line),
    });
    this.compare = new Compare({ go: (step) => this.choose(step, true), played: () => this.playedSteps() });
    measureStep();
    new ResizeObserver(() => measureStep() && this.redraw()).observe(byId("detail"));
    this.tutorial = new Tutorial(JSON.parse(byId("lessons").textContent), {
      load: (text, line) => {
        this.isOwn = false;
        this.load(text, { line });
      },
      outcomes: () => this.outcomes(),
      text: () => this.editor.text,
      edit: (text, line) => this.load(text, { line }),
      onImage: () => onDevice(this.editor.text, `# image ${hexOf(this.run.imageAt(this.chosen + 1))}`),
    });
  }

  // The script.

  /**
   * Returns the number of events before a line.
   * @param {number} line
   */
  countBefore(line) {
    const { steps } = this.script;
    let low = 0;
    let high = steps.length;
    while (low < high) {
      const middle = (low + high) >> 1;
      if (steps[middle].line < line) low = middle + 1;
      else high = middle;
    }
    return low;
  }

  /**
   * Gives up the work for an earlier text. Returns a function that says whether the work for the new text is still
   * needed.
   */
  newText() {
    this.texts += 1;
    const { texts } = this;
    return () => texts === this.texts;
  }

  /**
   * Returns the device before a line; null if that line is not read or played yet.
   * @param {number} line
   */
  stateAtLine(line) {
    const count = this.countBefore(line);
    return this.isRead && this.run.reaches(count, SLICE.first) ? this.run.stateAt(count) : null;
  }

  /**
   * @param {string} text @param {{line?: number, step?: number}} first the line or the step to begin at
   * @param {string} opened a message
   */
  load(text, { line, step } = {}, opened = "") {
    this.newText();
    this.opened = opened;
    this.editor.text = text;
    this.take(() => {
      this.place(step ?? Math.max(0, line === undefined ? 0 : this.countBefore(line + 1) - 1), true);
      this.playOn();
    });
  }

  /**
   * Called before another script replaces the current script: stores the current script if it is the user's
   * own.
   */
  keepFormer() {
    if (this.isOwn) this.former = this.editor.text;
    this.isOwn = false;
    byId("former").hidden = this.former === null;
  }

  loseFormer() {
    this.former = null;
    byId("former").hidden = true;
  }

  /** Restores the user's own script that another script replaced. */
  backToFormer() {
    const text = this.former;
    if (text === null) return;
    this.tutorial.close();
    this.leaveLog();
    this.loseFormer();
    this.isOwn = true;
    this.load(text);
    this.keepLink();
    byId("text").focus();
  }

  /**
   * Reads the text, in slices if it is long, and then does what follows.
   * @param {() => void} then
   */
  take(then) {
    clearTimeout(this.slice);
    this.later = null;
    this.isRead = false;
    this.script = { lines: this.editor.lines, steps: [], faults: new Map() };
    const fault = tooMuch("The script has", this.editor.text, "Undo, or delete lines.");
    if (!fault) return this.readOn(readingOf(this.chip, this.editor.lines), then);
    this.say(fault, true);
    return this.editor.paint();
  }

  /** @param {ReturnType<typeof readingOf>} reading @param {() => void} then */
  readOn(reading, then) {
    const read = forAWhile(reading, SLICE.read);
    if (read.done) {
      this.isRead = true;
      this.script = read.value;
      this.told.complete(this.script.steps);
      this.run.take(this.script.steps);
      return then();
    }
    this.editor.paint();
    this.slice = setTimeout(() => this.readOn(reading, then));
    return undefined;
  }

  /** Discards the explained log, and the device with which the log began. */
  leaveLog() {
    if (!this.told.log) return;
    if (this.told.start) this.run.begin(null);
    this.told.leave();
  }

  edited() {
    this.newText();
    this.leaveLog();
    this.opened = "";
    this.isOwn = true;
    closeHero();
    if (!this.tutorial.isOpen) this.loseFormer();
    this.take(() => {
      this.chosen = this.nearest(this.editor.caret().line);
      this.run.reaches(this.chosen + 1, SLICE.first);
      this.run.play(-1, SLICE.edit);
      this.editor.paint();
      this.editor.showForm();
      this.show();
      this.playOn();
      this.keepLink();
    });
  }

  /** Plays the remaining events in slices, so that the page responds in between. */
  playOn() {
    clearTimeout(this.slice);
    if (this.isAwaited && this.run.compared > this.chosen) this.show();
    if (this.run.isPlayed) return this.played();
    this.sayCount();
    this.slice = setTimeout(() => {
      this.run.play(-1, SLICE.next);
      this.editor.paint();
      this.playOn();
    });
  }

  played() {
    const { later } = this;
    this.later = null;
    this.sayCount();
    this.editor.paint();
    drawMarks(this.script.steps, this.notable());
    this.tutorial.look();
    this.compare.look();
    document.documentElement.dataset.played = String(this.script.steps.length);
    later?.();
  }

  /**
   * Does something as soon as all events are played.
   * @param {() => void} act
   */
  whenPlayed(act) {
    if (this.isRead && this.run.isPlayed) act();
    else this.later = act;
  }

  /**
   * Returns the event of a line or, if the line has none, that of the nearest earlier line that has one.
   * @param {number} line
   */
  nearest(line) {
    return Math.min(this.script.steps.length - 1, Math.max(this.countBefore(line + 1) - 1, 0));
  }

  /** @param {number} line */
  moved(line) {
    const step = this.nearest(line);
    if (!this.isRead || step === this.chosen) return;
    this.chosen = step;
    this.show();
    this.editor.paint();
    this.stepped();
  }

  /**
   * Writes a line below the chosen one.
   * @param {string} line
   */
  insert(line) {
    showPane("script");
    const { lines } = this.editor;
    const chosen = this.script.steps[this.chosen]?.line ?? -1;
    if (chosen + 1 < lines.length) return this.editor.insertLine(line, chosen + 1);
    return this.editor.insertLine(`\n${line}`, lines.length - 1);
  }

  // Choosing and showing a step.

  /** @param {number} step @param {boolean} isRevealed whether the editor goes there */
  choose(step, isRevealed) {
    if (!this.isRead) return;
    this.later = null;
    this.place(step, isRevealed);
    this.stepped();
  }

  /**
   * Called after the user chose a step: removes a message about the previous step,
   * and puts the chosen step into the link.
   */
  stepped() {
    if (this.isPassing) this.sayCount();
    if (!this.told.log) this.keepLink();
  }

  /** @param {number} step @param {boolean} isRevealed whether the editor goes there */
  place(step, isRevealed) {
    this.chosen = Math.max(-1, Math.min(step, this.script.steps.length - 1));
    this.show();
    const line = this.script.steps[this.chosen]?.line;
    if (isRevealed && line !== undefined) this.editor.goTo(line);
    this.editor.paint();
  }

  /** Shows everything again, for example after a change of the size or the colours. */
  redraw() {
    this.shown = [];
    this.show();
    drawMarks(this.script.steps, this.notable());
  }

  /** Returns the steps that are refused, or whose recorded response differs from this device's. */
  notable() {
    const { refusals, parted } = this.run;
    return parted.length ? [...new Set([...refusals, ...parted])].sort((one, other) => one - other) : refusals;
  }

  /** Shows the chosen step and the device after it, unless they are already shown or not played yet. */
  show() {
    const { chosen, run, script, chip } = this;
    if (!this.isRead) return;
    const step = script.steps[chosen];
    this.isAwaited = !run.reaches(chosen + 1, SLICE.first);
    if (this.isAwaited) return this.showAwaited();
    showSteps(script.steps, chosen, step ? this.outcome(step.line)?.text ?? "" : "");
    const before = run.stateAt(Math.max(0, chosen));
    const after = run.stateAt(chosen + 1);
    const line = script.lines[step?.line];
    const answer = run.answers[chosen];
    const told = step ? this.told.at(step.line) : null;
    const shown = [before, after, line, answer, step?.line, step?.random, ...step?.answers ?? []];
    const isShown = !told && shown.length === this.shown.length && shown.every((it, at) => it === this.shown[at]);
    if (isShown) return;
    this.shown = shown;
    const used = new Set(step ? handlesIn(step).map((it) => hexNumber(it, 8)) : []);
    showDevice(before, after, step ? `after line ${step.line + 1}` : "new", used);
    if (!step) return showNothing("The script has no command yet. Type one, such as do Startup 0, or open an example.");
    const uses = usesShown(run, chosen, (it) => this.choose(it, true));
    showStep(chip, {
      step, answer, line, before, after, uses, told, run, at: chosen, comment: commentAbove(script.lines, step.line), ...this.plainOf(chosen),
      go: (it) => this.choose(it, true), startBefore: () => this.editor.insertLine("do Startup 0", step.line),
      showGroup: (group) => {
        showPane("device");
        revealGroup(group);
      },
    });
  }

  /** Says that the chosen step is not played yet. */
  showAwaited() {
    const { chosen, script } = this;
    this.shown = [];
    showSteps(script.steps, chosen, "not played yet");
    showNothing(`The page plays the ${plural(chosen, "step")} before this one.`);
  }

  /**
   * Decrypts those parameters of a step that sessions encrypted.
   * @param {number} at
   */
  plainOf(at) {
    if (this.script.steps[at].kind !== "command") return NOT_ENCRYPTED;
    const response = plainResponse(this.run, at);
    const isOwn = areSame(responseOf(this.run, at), this.run.answers[at].response);
    return {
      plainCommand: plainCommand(this.run, at), plainResponse: isOwn ? response : null, plainGiven: isOwn ? null : response,
    };
  }

  /** @param {number} line */
  outcome(line) {
    const fault = this.script.faults.get(line);
    if (fault) return { text: faultName(fault), isBad: true };
    const at = this.countBefore(line);
    const step = this.script.steps[at];
    const answer = this.run.answers[at];
    if (step?.line !== line || answer === undefined) return null;
    if (step.kind === "begin") return { text: answer.trace ? `no device: ${answer.trace}` : "device", isBad: answer.trace !== "" };
    if (step.kind === "power") return { text: "", isBad: false };
    if (step.answers.some((given) => !isAnswer(given, answer))) return { text: "answered otherwise", isBad: true };
    const code = responseCode(answer.response);
    return code ? { text: this.chip.meaning(code)?.name ?? hexNumber(code, 3), isBad: true } : { text: "ok", isBad: false };
  }

  /**
   * Returns the command of a line, if the line is one.
   * @param {number} line
   */
  bufferOf(line) {
    const step = this.script.steps[this.countBefore(line)];
    return step?.line === line && step.kind === "command" ? step.buffer : null;
  }

  /** Returns the played steps, to be compared with those of another version. */
  playedSteps() {
    return this.run.answers.map(({ response }, at) => {
      const { line } = this.script.steps[at];
      return { line, text: this.script.lines[line], outcome: this.outcome(line)?.text ?? "", response };
    });
  }

  /** Returns the name and the response code of each played command, in words. */
  outcomes() {
    return this.run.answers.flatMap((answer, at) => {
      const { kind, buffer } = this.script.steps[at];
      if (kind !== "command") return kind === "power" ? [{ name: "power", code: "SUCCESS" }] : [{ name: "begin", code: "SUCCESS" }];
      const code = responseCode(answer.response);
      const name = byNumber.get(commandNumber(buffer))?.name ?? "";
      return [{ name, code: code ? this.chip.meaning(code)?.name ?? "" : "SUCCESS" }];
    });
  }

  sayCount() {
    const { run, script } = this;
    const refused = run.refusals.length;
    const parts = [plural(script.steps.length, "step"), `${grouped(refused)} refused`];
    if (!run.isPlayed) parts.push(`playing, at ${grouped(run.answers.length)}`);
    if (run.parted.length) parts.push(`${grouped(run.parted.length)} answered otherwise`);
    const bad = script.faults.size;
    if (bad) parts.push(`${plural(bad, "line")} that cannot be read, left out`);
    const count = this.notable().length;
    byId("refusal").disabled = !count;
    byId("refusal").replaceChildren("Next refusal", count ? make("span", { class: "count" }, ` of ${grouped(count)}`) : "");
    this.say(`${this.opened} ${parts.join(", ")}`.trim(), false);
    if (!this.opened) byId("note").setAttribute("aria-live", "off");
  }

  /** @param {string} words @param {boolean} isBad */
  say(words, isBad) {
    const note = byId("note");
    this.isPassing = false;
    note.setAttribute("aria-live", "polite");
    note.textContent = words;
    note.title = words;
    note.classList.toggle("bad", isBad);
  }

  /**
   * Shows a message about the chosen step, or about what was just done.
   * @param {string} words @param {boolean} [isBad]
   */
  sayShortly(words, isBad = false) {
    this.say(words, isBad);
    this.isPassing = true;
  }

  /** @param {number} by */
  go(by) {
    this.choose(Math.max(0, this.chosen + by), true);
  }

  /**
   * Chooses the next refusal, or the previous one; if necessary, as soon as all events are played.
   * @param {number} by @returns {void}
   */
  goToRefusal(by) {
    const refusals = this.isAwaited ? [] : this.notable();
    const found = by > 0 ? refusals.find((it) => it > this.chosen) : refusals.filter((it) => it < this.chosen).at(-1);
    if (found !== undefined) return this.choose(found, true);
    if (!this.isRead || !this.run.isPlayed) return this.whenPlayed(() => this.goToRefusal(by));
    return this.sayShortly(by > 0 ? "No refusal comes after this step." : "No refusal comes before this step.");
  }

  openTutorial() {
    this.keepFormer();
    closeHero();
    showPane("script");
    this.tutorial.open(0);
  }

  // Files and links.

  /** Shows the first story, and keeps a message about the link, if there is one. */
  greet() {
    const fault = byId("note").classList.contains("bad") ? byId("note").textContent : "";
    this.openStory(0, () => fault && this.say(fault, true));
  }

  /** @param {number} at the number of a story that the user chose */
  chooseStory(at) {
    this.tutorial.close();
    this.leaveLog();
    this.keepFormer();
    this.openStory(at, () => this.keepLink());
  }

  /**
   * Opens a story at its refusal.
   * @param {number} at @param {() => void} then
   */
  openStory(at, then) {
    const { example, script, code } = facts.stories[at];
    showPane("detail");
    for (const [place, it] of [...byId("stories").children].entries()) it.setAttribute("aria-pressed", String(place === at));
    this.load(example ? exampleOf(example) : script?.join("\n") ?? "", { line: 0 });
    this.playAll();
    this.whenPlayed(() => {
      const { refusals, answers } = this.run;
      this.place(refusals.find((it) => this.chip.meaning(responseCode(answers[it].response))?.name === code) ?? 0, true);
      then();
    });
  }

  /**
   * Opens the log that tools/explain.py put into the page.
   * @param {import("./told.js").Log} log
   */
  openLog(log) {
    document.title = `${log.name}, explained`;
    const fault = tooMuch("The log has", log.script, "Run tools/explain.py without --html, or on a part of the log.");
    if (fault) return this.say(fault, true);
    if (this.told.start) this.run.begin(this.told.start);
    this.load(log.script, { line: log.line - 1 });
    this.playAll();
    return this.whenPlayed(() => this.say(log.summary, false));
  }

  /** Plays a short script at once, and begins with a long one. */
  playAll() {
    if (!this.isRead) return;
    this.run.reaches(this.script.steps.length, SLICE.first);
    this.playOn();
  }

  keepLink() {
    clearTimeout(this.linkWait);
    this.linkWait = setTimeout(async () => replaceFragment(await this.fragment()), LINK_WAIT);
  }

  /**
   * Returns the fragment that contains the script and its chosen step, or "" if the script is too
   * long for a link.
   */
  async fragment() {
    const { text } = this.editor;
    if (text !== this.linked.text) this.linked = { text, fragment: await fragmentOf(text) };
    const { fragment } = this.linked;
    return fragment && this.chosen > 0 ? `${fragment}&n=${this.chosen + 1}` : fragment;
  }

  async copyLink() {
    const fragment = await this.fragment();
    if (!fragment) return this.sayShortly("The script is too long for a link. Download it instead.", true);
    replaceFragment(fragment);
    const link = location.href.split("#")[0] + fragment;
    try {
      await navigator.clipboard.writeText(link);
      return this.sayShortly(`The link is copied: ${plural(link.length, "character")}. ${LINK_WORDS}`);
    } catch {
      return this.sayShortly(`The link is in the address bar. ${LINK_WORDS}`);
    }
  }

  /** Opens the script in the address. Returns whether there is one, or another script was opened meanwhile. */
  async openLink() {
    const isNeeded = this.newText();
    const found = await scriptOf(location.hash);
    if (!isNeeded()) return true;
    if (found?.fault) this.say(found.fault, true);
    if (!found || found.fault) return false;
    const step = stepOf(location.hash);
    if (found.text !== this.editor.text) {
      this.keepFormer();
      this.isOwn = true;
      this.load(found.text, { step: Math.max(0, step) });
    } else if (step >= 0) {
      this.place(step, true);
    }
    return true;
  }

  /** @param {File | undefined} file */
  async open(file) {
    if (!file) return;
    const isNeeded = this.newText();
    this.sayShortly(`The page opens ${file.name}.`);
    const found = await opened(file, this.editor.text, isNeeded);
    if (!found) return;
    const { text, note, isBad } = found;
    if (isBad) return this.say(note, true);
    this.tutorial.close();
    this.leaveLog();
    this.keepFormer();
    this.isOwn = true;
    this.load(text, {}, note);
    this.keepLink();
  }

  /** @param {string} what */
  download(what) {
    if (what === "script") return download("script.tpm", [this.editor.text]);
    if (what === "report") return this.report();
    return this.whenPlayed(() => this.save(what));
  }

  /** @param {string} what */
  save(what) {
    const { run, script, chosen } = this;
    if (what === "image") return download("tpm.image", [run.imageAt(chosen + 1)]);
    if (what === "state") return download("tpm.state", [run.textAt(chosen + 1)]);
    if (what === "journal") return download("journal", run.journal());
    return download("log.tpm", [logOf(script, run.answers)]);
  }

  /** Shows the invalid lines, as `tpmsim check` prints them. */
  report() {
    const lines = this.chip.report(this.script.lines);
    if (!lines.length) return this.sayShortly("Every line can be read.");
    return download("report.txt", lines);
  }
}

/** @param {string} fragment */
function replaceFragment(fragment) {
  history.replaceState(null, "", location.href.split("#")[0] + fragment);
}

export function closeHero() {
  byId("hero").hidden = true;
}

/**
 * Returns the comment above a line, as prose.
 * @param {string[]} lines @param {number} line
 */
function commentAbove(lines, line) {
  const isWord = (/** @type {number} */ at) => /^(?:entropy|wait|loc) /.test(lines[at] ?? "");
  let end = line;
  while (isWord(end - 1)) end -= 1;
  let first = end;
  while (lines[first - 1]?.startsWith("# ")) first -= 1;
  const text = lines.slice(first, end).map((it) => it.slice(2)).join(" ");
  return /[0-9a-f]{20}/.test(text) ? "" : cut(text, MOST_COMMENT);
}

/** @param {string} name */
export const exampleOf = (name) => facts.examples.find(([it]) => it === name)?.[1] ?? "";
