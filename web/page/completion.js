// Completes a line: offers words, commands, and for each field the values that fit it, with the
// handles that the device has at that line.

import { hexNumber } from "./bytes.js";
import { byName, facts } from "./facts.js";
import { handlesOf } from "./state.js";
import { handleWords, nvTypeWords, algorithmWords } from "./words.js";

/**
 * @typedef {import("./state.js").State} State
 * @typedef {import("./facts.js").CommandFact} CommandFact
 * @typedef {{text: string, words: string, isMore: boolean}} Choice `isMore`: more words follow it
 * @typedef {{text: string, at: number, sort: "name" | "handle" | "entry" | "parameter", field: number}} Token
 * @typedef {{from: number, choices: Choice[]}} Completion
 */

const WORDS = [
  ["do ", "a command in words"], ["cmd ", "a command's bytes in hex"], ["power", "power goes, and comes back"],
  ["wait ", "milliseconds before the next command"], ["entropy ", "random bytes of later commands"],
  ["loc ", "locality of later commands"],
];
const MOST_ENTRIES = 3;
const MOST_CHOICES = 60;
/** No command in words is longer. */
const MOST_WORDS = 1 << 16;
const FIRST_BYTES = { index: 0x01, hmac: 0x02, policy: 0x03 };

/**
 * Returns the tokens of a command in words, each with its field. A text that is too long for a command is one token.
 * @param {string} words
 */
export function tokensOf(words) {
  /** @type {Token[]} */
  const tokens = [];
  let at = 0;
  for (const text of words.length > MOST_WORDS ? [words] : words.split(" ")) {
    tokens.push({ text, at, sort: "parameter", field: -1 });
    at += text.length + 1;
  }
  tokens[0].sort = "name";
  const command = byName.get(tokens[0].text);
  if (!command) return { tokens, command: null, entries: 0 };
  const entries = placeTokens(tokens, command);
  return { tokens, command, entries };
}

/** @param {Token[]} tokens @param {CommandFact} command */
function placeTokens(tokens, command) {
  let at = 1;
  for (; at < tokens.length && at <= command.handles.length; at += 1) {
    tokens[at].sort = "handle";
    tokens[at].field = at - 1;
  }
  let entries = 0;
  for (; at < tokens.length && entries < MOST_ENTRIES && isEntry(tokens[at].text); at += 1) {
    tokens[at].sort = "entry";
    tokens[at].field = entries;
    entries += 1;
  }
  for (let field = 0; at < tokens.length; at += 1, field += 1) tokens[at].field = field;
  return entries;
}

/** @param {string} text */
const isEntry = (text) => text.startsWith("pw:") || text.startsWith("s:");

/** @param {string} text @param {string} words @param {boolean} [isMore] @returns {Choice} */
const choice = (text, words, isMore = true) => ({ text, words, isMore });

/**
 * Returns the choices whose text begins with the typed text, followed by those that contain it elsewhere.
 * @param {Choice[]} choices @param {string} typed
 */
function matching(choices, typed) {
  const low = typed.toLowerCase();
  const front = choices.filter((it) => it.text.toLowerCase().startsWith(low));
  const within = choices.filter((it) => !front.includes(it) && `${it.text} ${it.words}`.toLowerCase().includes(low));
  return [...front, ...(low.length > 1 ? within : [])].slice(0, MOST_CHOICES);
}

/**
 * Returns what may follow the part of a line that has been typed.
 * @param {import("./device.js").Chip} chip @param {string} line
 * @param {State} state the device at that line
 * @returns {Completion | null}
 */
export function completionOf(chip, line, state) {
  if (line.startsWith("#")) return null;
  if (!line.includes(" ")) {
    const choices = matching(WORDS.map(([text, words]) => choice(text, words, false)), line);
    return line && WORDS.some(([text]) => text === line) ? null : { from: 0, choices };
  }
  if (!line.startsWith("do ")) return null;
  const { tokens, command, entries } = tokensOf(line.slice(3));
  const last = tokens[tokens.length - 1];
  const from = 3 + last.at;
  if (tokens.length === 1) return { from, choices: matching(commandChoices(), last.text) };
  if (!command) return null;
  return { from, choices: matching(choicesFor(chip, command, last, entries, state), last.text) };
}

const commandChoices = () =>
  facts.commands.map((it) => choice(it.name, it.form.slice(it.name.length + 1), it.form !== it.name));

/** @param {import("./device.js").Chip} chip @param {CommandFact} command @param {Token} token @param {number} entries @param {State} state */
function choicesFor(chip, command, token, entries, state) {
  const example = tokensOf(`${command.name} ${chip.example(command.number).replace(new RegExp(`^${command.name} `), "")}`).tokens;
  const exampleOf = (/** @type {string} */ sort) => example.find((it) => it.sort === sort && it.field === token.field)?.text;
  if (token.sort === "handle") return handleChoices(command, token.field, state);
  const found = [];
  const mayBeEntry = token.sort === "entry" || (token.field === 0 && entries < MOST_ENTRIES);
  if (mayBeEntry) found.push(...entryChoices(command, entries - Number(token.sort === "entry"), state));
  const needsEntry = entries < command.handles.filter((it) => it.isAuthorized).length;
  if (token.sort === "parameter" && !needsEntry) found.unshift(...parameterChoices(command, token.field, exampleOf("parameter"), state));
  return found;
}

/** @param {CommandFact} command @param {number} field @param {State} state */
function handleChoices(command, field, state) {
  const { name, kind } = command.handles[field];
  const fact = facts.handleKinds[kind];
  const live = fact.first.flatMap((first) => handlesOf(state, first)).map((handle) => choice(hexNumber(handle, 8), entityWords(handle, state)));
  const names = [...fact.fixed].sort((one, other) => Number(other === "NULL") - Number(one === "NULL"));
  const fixed = names.map((text) => choice(text, text === "NULL" ? "none" : `hierarchy, for ${name}`));
  const pcrs = fact.isPcr ? Array.from({ length: facts.pcrs }, (_, pcr) => choice(hexNumber(pcr, 8), `PCR ${pcr}`)) : [];
  return [...fixed, ...live, ...pcrs];
}

/**
 * Describes the entity that a handle names.
 * @param {number} handle @param {State} state
 */
function entityWords(handle, state) {
  const index = state.indices.find((it) => it.handle === handle);
  if (index) return `NV index, ${nvTypeWords(index.attributes)}, ${index.size} bytes`;
  const held = state.objects.get(handle);
  if (held) return `object, ${algorithmWords(held.type)}, of ${handleWords(held.hierarchy)}`;
  const session = state.sessions.find((it) => it.handle === handle);
  return session ? facts.sessions[session.type] : "";
}

/** @param {CommandFact} command @param {number} entries @param {State} state */
function entryChoices(command, entries, state) {
  const wanted = command.handles.filter((it) => it.isAuthorized).length;
  const found = entries < wanted ? [choice("pw:-", "the empty password"), choice("pw:", "a password in hex", false)] : [];
  for (const session of state.sessions) {
    const handle = hexNumber(session.handle, 8);
    if (session.type === 1) found.push(choice(`s:${handle}:-:01:-`, "by this policy session"));
    if (session.type === 0) found.push(choice(`s:${handle}:`, "by this HMAC session: nonce, attributes, HMAC", false));
  }
  return entries < wanted || found.length ? found : [];
}

/**
 * Returns the values that are offered for a parameter, with their names, keyed by the parameter's name.
 * @returns {Record<string, [string, string][]>}
 */
const namedNumbers = () => ({
  startupType: Object.entries(facts.starts), shutdownType: Object.entries(facts.starts),
  sessionType: Object.entries(facts.sessions), operation: facts.operations.map((name, at) => [String(at), name]),
  fullTest: [["1", "yes"], ["0", "no"]], disable: [["1", "yes"], ["0", "no"]], writtenSet: [["1", "yes"], ["0", "no"]],
});

/** @type {Record<string, [string, string][]>} */
const CHOICES_OF_KIND = {
  Hash: [["sha256", "SHA-256"], ["sha1", "SHA-1"], ["null", "the key's own"]],
  Cipher: [["null", "encrypts nothing"], ["aes", "AES-128 CFB"], ["xor-sha256", "XOR"], ["xor-sha1", "XOR"]],
  Selection: [["-", "no PCR"], ["sha256:0", "PCR 0"], ["sha256:7", "PCR 7"], ["sha256:0,7", "PCRs 0 and 7"]],
  Digests: [["-", "no digest"]],
  Buffer: [["-", "empty"]],
};

/** @param {CommandFact} command @param {number} field @param {string | undefined} example @param {State} state */
function parameterChoices(command, field, example, state) {
  const parameter = command.parameters[field];
  if (!parameter) return [];
  const named = namedNumbers()[parameter.name];
  if (named) return named.map(([text, words]) => choice(text, words));
  if (parameter.kind === "handle32") return liveNumbers(command, state);
  if (parameter.name === "code") return facts.commands.map((it) => choice(`0x${it.number.toString(16)}`, it.name));
  const found = (CHOICES_OF_KIND[parameter.kind] ?? []).map(([text, words]) => choice(text, words));
  if (example && !found.some((it) => it.text === example)) found.unshift(choice(example, `example of ${parameter.name}`));
  return found;
}

/**
 * Returns the handles that fit a parameter that is a handle, as numbers.
 * @param {CommandFact} command @param {State} state
 */
function liveNumbers(command, state) {
  const isFlush = command.name === "FlushContext";
  const firsts = isFlush ? [0x80, FIRST_BYTES.hmac, FIRST_BYTES.policy] : [0x81];
  const found = firsts.flatMap((first) => handlesOf(state, first)).map((handle) => choice(`0x${hexNumber(handle, 8)}`, entityWords(handle, state)));
  if (!isFlush) found.push(choice("0x81000001", "a new persistent handle"));
  return found;
}
