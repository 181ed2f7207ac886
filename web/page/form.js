// Shows the form of a line's command, and highlights the field at the caret. Says what a word of a line means.

import { fieldMeaning } from "./bytes_view.js";
import { LINE_WORD } from "./coloured.js";
import { tokensOf } from "./completion.js";
import { make } from "./dom.js";
import { facts } from "./facts.js";
import { fieldsOfCommand } from "./fields.js";

/** @param {string} text @param {number} column */
export function formShown(text, column) {
  if (text.startsWith("do ")) {
    const { tokens, command, entries } = tokensOf(text.slice(3));
    if (command) return commandForm(command, tokens, entries, column - 3);
  }
  return [make("em", {}, OTHER_FORMS[LINE_WORD.exec(text)?.[0] ?? ""] ?? OTHER_FORMS[""])];
}

/** @type {Record<string, string>} */
const OTHER_FORMS = {
  "": "A line is do, a command's name, handles, entries and parameters; or cmd and bytes in hex. Paste a command's bytes or a hex dump. Ctrl+Space shows what may come next.",
  do: "do and a command in words, such as do GetRandom 8", cmd: "cmd and the bytes of a command in hex",
  wait: "wait and so many milliseconds, which pass before the next command",
  loc: "loc and the locality of later commands, 0 to 4",
  entropy: "entropy and 1 to 256 bytes in hex: the random bytes of later commands",
  power: "power is a power cycle: power goes, and comes back",
};

/** @param {import("./facts.js").CommandFact} command @param {import("./completion.js").Token[]} tokens @param {number} entries @param {number} column */
function commandForm(command, tokens, entries, column) {
  const here = [...tokens].reverse().find((it) => it.at <= column) ?? tokens[0];
  const wanted = command.handles.filter((it) => it.isAuthorized).length;
  const isEntryNext = here.sort === "parameter" && entries < wanted;
  const isOn = (/** @type {string} */ sort, /** @type {number} */ field) =>
    (isEntryNext ? sort === "entry" && field === entries : here.sort === sort && here.field === field);
  const parts = [formPart(command.name, "command", here.sort === "name")];
  command.handles.forEach((it, at) => parts.push(formPart(it.name, facts.handleKinds[it.kind].words, isOn("handle", at))));
  for (let at = 0; at < Math.max(wanted, entries); at += 1) parts.push(formPart("entry", isOn("entry", at) ? "pw:HEX, or s:SESSION:NONCE:ATTRIBUTES:HMAC" : "pw:HEX, or s:..", isOn("entry", at)));
  command.parameters.forEach((it, at) => parts.push(formPart(it.name, facts.kindWords[it.kind] ?? it.kind, isOn("parameter", at))));
  return parts;
}

/** @param {string} name @param {string} words @param {boolean} isOn */
const formPart = (name, words, isOn) => make("span", { class: isOn ? "on" : false }, name, make("small", {}, words));

const MOST_FIELDS = 12;

/**
 * Says what the word at a column of a line means: its name in the command, and its fields if the line is an event.
 * @param {string} text @param {number} column @param {Uint8Array | null} buffer the command of the line
 */
export function meaningAt(text, column, buffer) {
  if (!text.startsWith("do ")) return "";
  const { tokens, command } = tokensOf(text.slice(3));
  const token = tokens.find((it) => column >= 3 + it.at && column < 3 + it.at + it.text.length);
  if (!command || !token) return "";
  if (token.sort === "name") return `TPM2_${command.form}`;
  const name = nameOf(command, token);
  const fields = buffer ? partsOf(fieldsOfCommand(buffer), token) : [];
  const more = fields.length > MOST_FIELDS ? [`and ${fields.length - MOST_FIELDS} more fields`] : [];
  return [name, ...fields.slice(0, MOST_FIELDS).map((it) => `${"  ".repeat(it.depth)}${fieldMeaning(/** @type {Uint8Array} */ (buffer), it)}`), ...more].join("\n");
}

/** @param {import("./facts.js").CommandFact} command @param {import("./completion.js").Token} token */
function nameOf(command, { sort, field }) {
  const handle = command.handles[field];
  const parameter = command.parameters[field];
  if (sort === "handle") return `handle ${handle.name}: ${facts.handleKinds[handle.kind].words}`;
  if (sort === "entry") return `authorization ${field + 1}`;
  return parameter ? `parameter ${parameter.name}: ${facts.kindWords[parameter.kind] ?? parameter.kind}` : "more than the command takes";
}

/**
 * Returns the fields of a command that a word of its line encodes.
 * @param {import("./fields.js").Field[]} fields @param {import("./completion.js").Token} token
 */
function partsOf(fields, { sort, field }) {
  const those = fields.filter((it) => it.sort === sort);
  const tops = those.filter((it) => it.depth === 0 && (sort !== "entry" || it.isGroup));
  const top = tops[field];
  return top ? those.filter((it) => it.at >= top.at && it.at + it.size <= top.at + top.size) : [];
}
