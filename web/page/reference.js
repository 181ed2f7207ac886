// The reference: all commands in groups, what each takes, the link to its rules, and a button that writes an example of
// it into the script.

import { byId, make } from "./dom.js";
import { facts } from "./facts.js";
import { tableLink } from "./step_pane.js";

/** @typedef {{insert: (line: string) => void, example: (number: number) => string}} Shell */

/** @type {[string, RegExp][]} */
const GROUPS = [
  ["Start, time and random bytes", /^(Startup|Shutdown|(Incremental)?SelfTest|GetCapability|GetRandom|StirRandom|ReadClock|Clock(Set|RateAdjust)|GetTestResult)$/],
  ["PCRs", /^PCR_/],
  ["Keys and sealed data", /^(Create|CreatePrimary|Load|ReadPublic|Unseal|Hash|HMAC|TestParms|EvictControl|FlushContext|ObjectChangeAuth)$/],
  ["Sessions and policies", /^(StartAuthSession|Policy)/],
  ["NV memory", /^NV_/],
  ["Hierarchies and lockout", /./],
];

/** @param {Shell} shell */
export function toggleReference(shell) {
  if (!byId("drawer").hidden) return closeReference();
  const list = make("div", { class: "list" });
  const search = /** @type {HTMLInputElement} */ (make("input", { type: "search", id: "find", placeholder: "Find a command", "aria-label": "Find a command", autocomplete: "off" }));
  const draw = () => list.replaceChildren(...groupsShown(search.value.trim().toLowerCase(), shell));
  search.addEventListener("input", draw);
  byId("drawer").replaceChildren(
    make("div", { class: "bar" }, make("h2", {}, "Reference"), make("button", { type: "button", class: "plain", "aria-label": "Close the reference", onclick: closeReference }, "✕")),
    search, make("p", { class: "dim" }, "A line is ", ...partsShown(["handle"], ["authorization"], ["parameter"]), ", in this order."), list,
  );
  draw();
  show(true);
  return search.focus();
}

function closeReference() {
  show(false);
  byId("reference").focus();
}

/** @param {boolean} isOpen */
function show(isOpen) {
  byId("drawer").hidden = !isOpen;
  byId("reference").setAttribute("aria-pressed", String(isOpen));
}

/** @param {string[]} handles @param {string[]} entries @param {string[]} parameters */
const partsShown = (handles, entries, parameters, name = "Command") => [
  make("code", { class: "t-word" }, "do "), make("code", { class: "t-name" }, name),
  ...handles.map((it) => make("code", { class: "t-handle" }, ` ${it}`)), ...entries.map((it) => make("code", { class: "t-entry" }, ` ${it}`)),
  ...parameters.map((it) => make("code", { class: "t-parameter" }, ` ${it}`)),
];

/** @param {string} wanted @param {Shell} shell */
function groupsShown(wanted, shell) {
  const left = new Set(facts.commands);
  const found = [];
  for (const [title, names] of GROUPS) {
    const those = [...left].filter((it) => names.test(it.name));
    for (const it of those) left.delete(it);
    const shown = those.filter((it) => `${it.name} ${it.form}`.toLowerCase().includes(wanted));
    if (shown.length) found.push(make("h3", {}, title), ...shown.map((it) => commandShown(it, shell)));
  }
  return found.length ? found : [make("p", { class: "dim" }, `None of the ${facts.commands.length} commands has this name.`)];
}

/** @param {import("./facts.js").CommandFact} command @param {Shell} shell */
function commandShown(command, { insert, example }) {
  const { handles, parameters } = command;
  const line = `do ${command.name} ${example(command.number)}`.trim();
  return make(
    "div", { class: "command" },
    make("p", {}, ...partsShown(handles.map((it) => it.name), handles.filter((it) => it.isAuthorized).map(() => "pw:HEX"), parameters.map((it) => it.name), command.name)),
    tableLink(command.section, "Rules"),
    make("button", { type: "button", class: "as-link", title: line, "aria-label": `Insert ${command.name}`, onclick: () => insert(line) }, "Insert"),
  );
}
