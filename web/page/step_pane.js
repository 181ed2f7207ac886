// Shows the chosen step: the command, the response and the reason for it, the changes, and the
// bytes.

import { hexNumber, hexOf } from "./bytes.js";
import { bytesShown } from "./bytes_view.js";
import { byId, cut, heading, listed, make } from "./dom.js";
import { byNumber, facts } from "./facts.js";
import { commandNumber, fieldsOfCommand, fieldsOfResponse, responseCode } from "./fields.js";
import { icon } from "./icons.js";
import { picturesOf } from "./pictures.js";
import { movedPcrs, promiseOf } from "./policies.js";
import { isWrongEntry, pairOf, rowsOf, rulesOf, typeField, valuesOf } from "./reason.js";
import { entropyWord, isAnswer } from "./script.js";
import { changesOf } from "./state.js";
import { differenceWords, pairShown } from "./values_view.js";
import { commandWords, grouped, localitiesWords, secondsWords, sizeWords } from "./words.js";

/**
 * @typedef {import("./device.js").Answer} Answer
 * @typedef {import("./device.js").Meaning} Meaning
 * @typedef {import("./script.js").Step} Step
 * @typedef {import("./state.js").State} State
 * @typedef {import("./plain.js").Plain} Plain
 * @typedef {{
 *   step: Step, answer: Answer, line: string, before: State, after: State, told?: import("./told.js").ToldShown | null,
 *   plainCommand: Plain | null, plainResponse: Plain | null, plainGiven: Plain | null, uses: Node | null,
 *   comment: string, run: import("./run.js").Run, at: number, go: (step: number) => void,
 *   showGroup: (group: string) => void, startBefore: () => void,
 * }} Chosen `plainGiven` is the decrypted response that the script records, if it differs from the
 *   device's; `comment` is the comment above the line
 */

const BYTE_WIDTH = 21;
const ROW_EDGES = 84;
const PCRS = "PCRs";
const MOST_CHIP = 40;

/**
 * Returns the response code of an answer in words.
 * @param {import("./device.js").Chip} chip @param {Answer} answer
 */
export function codeWords(chip, answer) {
  const code = responseCode(answer.response);
  if (!code) return "accepted";
  const meaning = chip.meaning(code);
  if (!meaning) return hexNumber(code, 3);
  return meaning.kind ? `${meaning.name}, ${meaning.kind} ${meaning.number}` : meaning.name;
}

/**
 * Returns a response code as the table writes it, such as AUTH_FAIL/s1.
 * @param {import("./device.js").Chip} chip @param {number} code
 */
export function spelledCode(chip, code) {
  if (!code) return "SUCCESS";
  const meaning = chip.meaning(code);
  if (!meaning) return "no code that is known";
  return meaning.kind ? `${meaning.name}/${meaning.kind[0]}${meaning.number}` : meaning.name;
}

/**
 * Returns the name of a section of docs/table, in words.
 * @param {string} link
 */
const sectionWords = (link) =>
  link.replace(/^docs\/table\//, "Table, ").replace(/#tpm2_.*-(\w+)$/, (_, code) => `#${commandWords(parseInt(code, 16)).replace(/_/g, "\0")}`)
    .replace(/\.md#/, ": ").replace(/[-_]/g, " ").replace(/\0/g, "_");

/** @param {string} link */
export const tableLink = (link, words = sectionWords(link)) =>
  make("a", { href: link.replace(/^docs/, facts.docs), target: "_blank", rel: "noopener" }, words);

/** @param {import("./device.js").Chip} chip @param {Chosen} chosen */
export function showStep(chip, chosen) {
  const pane = byId("detail");
  const parts = chosen.step.kind === "command" ? commandParts(chip, chosen) : otherParts(chosen);
  pane.scrollTop = 0;
  pane.replaceChildren(...parts.flat().filter(Boolean));
}

/** @param {string} words */
export function showNothing(words) {
  byId("detail").replaceChildren(make("h2", {}, "No step"), make("p", { class: "dim" }, words));
}

/** @param {Chosen} chosen */
function otherParts(chosen) {
  const { step, answer } = chosen;
  const isPower = step.kind === "power";
  const title = isPower ? "Power cycle" : "The device begins";
  const fault = answer.trace && !isPower ? make("div", { class: "why" }, `These bytes are no device: ${answer.trace}.`) : null;
  const words = isPower
    ? "Power goes, and comes back: PCRs, sessions and transient objects are gone, and the device waits for TPM2_Startup."
    : `The device is that of ${sizeWords(step.buffer.length)} in this line.`;
  return [make("h2", {}, title), make("p", { class: "dim" }, words), fault, effectShown(chosen)];
}

/** @param {import("./device.js").Chip} chip @param {Chosen} chosen */
function commandParts(chip, chosen) {
  const { step, answer, told } = chosen;
  const number = commandNumber(step.buffer);
  const code = responseCode(answer.response);
  const meaning = code ? chip.meaning(code) : null;
  const plain = { command: known(chosen.plainCommand), response: known(chosen.plainResponse) };
  const fields = fieldsOfCommand(plain.command?.bytes ?? step.buffer);
  const answered = fieldsOfResponse(answer.code, plain.response?.bytes ?? answer.response, (it) => spelledCode(chip, it));
  const pictures = picturesOf({ ...chosen, meaning });
  return [
    title(chip, number, answer, code),
    chosen.comment ? make("p", { class: "prose" }, chosen.comment) : null,
    code ? whyShown(chosen, meaning, pictures) : null,
    ...differences(chip, chosen),
    ...(told?.parts ?? []),
    effectShown(chosen),
    ...(code && !told?.hasReason ? [] : pictures),
    make("p", { class: "words" }, wordsOf(chip, chosen)),
    make("p", { class: "dim" }, placeWords(step)),
    heading("Command", sizeWords(step.buffer.length)),
    encryptionShown(chosen.plainCommand, code !== 0),
    bytesShown({ bytes: step.buffer, fields, wrong: wrongField(fields, meaning), plain: plain.command }, perRow),
    heading("Response", `${sizeWords(answer.response.length)}${answer.drawn ? `, ${answer.drawn} random` : ""}`),
    encryptionShown(chosen.plainResponse),
    bytesShown({ bytes: answer.response, fields: answered, wrong: null, plain: plain.response }, perRow),
    ...(told?.after ?? []),
    chosen.uses,
  ];
}

/** @param {import("./device.js").Chip} chip @param {number} number @param {Answer} answer @param {number} code */
function title(chip, number, answer, code) {
  const section = byNumber.get(number)?.section;
  const name = number ? commandWords(number) : "No command";
  const outcome = code ? `${codeWords(chip, answer)} (${hexNumber(code, 3)})` : "accepted";
  return make(
    "h2", { class: code ? "verdict bad" : "verdict" }, icon(code ? "no" : "yes"), section ? tableLink(section, name) : name,
    make("span", { class: code ? "badge bad" : "badge" }, outcome),
  );
}

/** @param {Step} step */
function placeWords(step) {
  const parts = [`line ${step.line + 1}`, `locality ${step.locality}`];
  if (step.elapsed) parts.push(`${secondsWords(step.elapsed)} after the command before it`);
  const entropy = entropyWord(step.random);
  parts.push(`random bytes ${cut(entropy, 16)}`);
  return parts.join(", ");
}

/** @param {import("./device.js").Chip} chip @param {Chosen} chosen */
function wordsOf(chip, { step, line }) {
  if (line.startsWith("do ")) return line.slice(3);
  return chip.spell(step.buffer) || "No line in words spells these bytes.";
}

/** @param {Chosen} chosen @param {Meaning | null} meaning @param {Node[]} pictures */
function whyShown(chosen, meaning, pictures) {
  const { step, answer, before, told, startBefore } = chosen;
  if (told?.hasReason) return null;
  const pair = pairOf(step, meaning, before);
  const values = pair ? [] : valuesOf(step, meaning, before);
  const rules = rulesOf(answer.check, step.buffer, meaning, before).map(({ sentence, link }) => make("p", {}, sentence, " ", tableLink(link)));
  const cause = pair ? pairWords(pair, meaning) : causeOf(chosen, meaning);
  return make(
    "div", { class: "why" },
    cause ? make("p", { class: "cause" }, cause) : null,
    isUnstarted(chosen, meaning) ? make("button", { type: "button", onclick: startBefore }, "Put Startup before it") : null,
    pair ? pairShown(pair) : null,
    pictures.length ? make("div", { class: "drawn" }, ...pictures) : null,
    values.length && isWrongEntry(meaning) ? listed(values) : null,
    make("p", {}, `Refused by check ${answer.check}.`), ...rules,
    values.length && !isWrongEntry(meaning) ? listed(values) : null,
    make("p", { class: "dim" }, make("code", {}, answer.trace)),
    rowsShown(answer.check, step.buffer),
  );
}

/** @param {import("./values_view.js").Pair} pair @param {Meaning | null} meaning */
const pairWords = ({ said, given, wanted }, meaning) => (isWrongEntry(meaning) ? `${said} ${differenceWords(given.bytes, wanted[0].bytes)}` : said);

/** @param {Chosen} chosen @param {Meaning | null} meaning */
const isUnstarted = ({ answer, before }, meaning) => meaning?.name === "INITIALIZE" && answer.check === "G5" && !before.isStarted;

/**
 * Says in one sentence why a command was refused, if its code and the state say it.
 * @param {Chosen} chosen @param {Meaning | null} meaning
 */
function causeOf(chosen, meaning) {
  const { step, before, run, at } = chosen;
  const values = () => valuesOf(step, meaning, before).map(([label, value]) => `${label}: ${value}`).join("; ");
  switch (meaning?.name) {
    case "INITIALIZE": return isUnstarted(chosen, meaning) ? "No Startup came before it." : "The device is already started.";
    case "LOCKOUT": return before.isClosed ? "lockoutAuth is closed for now: nothing was compared." : `${grouped(before.failedTries)} of ${grouped(before.maxTries)} tries have failed: nothing was compared.`;
    case "PCR_CHANGED": {
      const promise = promiseOf(run, at);
      const moved = promise ? movedPcrs(run, promise, at) : [];
      return moved.length ? `PCR ${moved.join(", ")} changed after PolicyPCR demanded its value.` : "A PCR changed after PolicyPCR.";
    }
    case "POLICY_CC": return `The policy allows another command. ${values()}.`;
    case "LOCALITY": return localityCause(step, values());
    default: return "";
  }
}

/** @param {Step} step @param {string} values */
const localityCause = (step, values) => (values ? `It came from another locality than the policy allows. ${values}.` : `Locality ${localitiesWords(1 << step.locality)} may not do this.`);

/**
 * Shows the table's rows for a check; the user can open them.
 * @param {string} check @param {Uint8Array} buffer
 */
function rowsShown(check, buffer) {
  const rows = rowsOf(check, buffer);
  if (!rows.length) return null;
  const whose = check.startsWith("A") ? `The checks of ${commandWords(commandNumber(buffer))}` : `Check ${check}`;
  return make("details", {}, make("summary", {}, `${whose} in the table`), listed(rows));
}

/**
 * Shows the log's responses that differ from the device's.
 * @param {import("./device.js").Chip} chip @param {Chosen} chosen
 */
function differences(chip, { step, answer, plainGiven }) {
  const others = step.answers.filter((given) => !isAnswer(given, answer));
  return others.map((given) => make(
    "div", { class: "why" },
    make("p", {}, "The script has another answer than this device."),
    plainGiven && given.length > 8 && !given.includes(" ") ? make("p", {}, givenWords(plainGiven)) : null,
    listed([["the script's", given], ["this device's", given.length === 8 ? hexOf(answer.response.subarray(6, 10)) : given.includes(" ") ? answer.trace : hexOf(answer.response)]]),
  ));
}

/** @param {Plain} plain */
const givenWords = ({ reason, bytes, from, to, session }) => (reason
  ? `Session ${hexNumber(session, 8)} encrypted it, and it is not decrypted: ${reason}.`
  : `Session ${hexNumber(session, 8)} encrypted it; decrypted, its first parameter is ${hexOf(bytes.subarray(from, to)) || "empty"}.`);

/**
 * Returns the decrypted text, or null if it could not be decrypted.
 * @param {Plain | null} plain
 */
const known = (plain) => (plain && !plain.reason ? plain : null);

/**
 * Shows that a parameter is encrypted, and why it was not decrypted.
 * @param {Plain | null} plain @param {boolean} [isRefused] whether its command was refused
 */
function encryptionShown(plain, isRefused = false) {
  if (!plain) return null;
  const words = `Session ${hexNumber(plain.session, 8)} encrypted the first parameter`;
  return make("p", { class: "dim" }, plain.reason ? `${words}. It is not decrypted: ${plain.reason}.` : `${words}, which is decrypted in the table.${isRefused ? " The device refused the command before it used the parameter." : ""}`);
}

/**
 * Returns the field that a response code refers to.
 * @param {import("./fields.js").Field[]} fields @param {Meaning | null} meaning
 */
function wrongField(fields, meaning) {
  const sort = { handle: "handle", parameter: "parameter", session: "entry", "": "" }[meaning?.kind ?? ""];
  const those = fields.filter((it) => it.sort === sort && it.depth === 0 && (sort !== "entry" || it.isGroup));
  const found = those[(meaning?.number ?? 0) - 1] ?? null;
  return (meaning?.name === "TYPE" && sort === "parameter" ? typeField(fields, meaning.number) : null) ?? found;
}

let perRow = 16;

/** Measures the number of bytes that fit in a row of the pane, and returns whether it has changed. */
export function measureStep() {
  const before = perRow;
  perRow = byId("detail").clientWidth - ROW_EDGES >= 16 * BYTE_WIDTH ? 16 : 8;
  return perRow !== before;
}

/**
 * Names what a step changed. The pane of the device shows the values.
 * @param {Chosen} chosen
 */
function effectShown({ before, after, showGroup }) {
  const all = changesOf(before, after);
  if (!all.length) return make("p", { class: "effect dim" }, "It changed nothing but time.");
  const groups = [...new Set(all.map((it) => it.group))];
  return make("div", { class: "effect" }, make("span", { class: "dim" }, "It changed"), ...groups.map((group) => {
    const words = group === PCRS && before.isStarted !== after.isStarted ? PCR_WORDS[Number(after.isStarted)] : effectWords(group, all.filter((it) => it.group === group));
    return make("button", { type: "button", class: "chip", onclick: () => showGroup(group) }, words);
  }));
}

const PCR_WORDS = ["PCRs: gone with the power", "PCRs: the values of this start"];

/** @param {string} group @param {import("./state.js").Change[]} those */
function effectWords(group, those) {
  const entities = [...new Set(those.map((it) => it.entity))];
  const [{ name, before, after }] = those;
  const front = `${group === PCRS ? "" : group} ${entities.filter(Boolean).join(", ")}`.trim() || group;
  if (those.every((it) => it.before === null)) return `${cut(front, MOST_CHIP)}: new`;
  if (those.every((it) => it.after === null)) return `${cut(front, MOST_CHIP)}: gone`;
  const both = `${name}: ${before ?? "none"} → ${after ?? "gone"}`;
  return those.length === 1 && both.length <= MOST_CHIP ? both : cut(front, MOST_CHIP);
}
