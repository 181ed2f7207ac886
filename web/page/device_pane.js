// Shows the device after the chosen step, and highlights what that step changed.

import { byId, cut, isHexWord, make } from "./dom.js";
import { GROUPS, changesOf, isBlank } from "./state.js";

/**
 * @typedef {import("./state.js").State} State
 * @typedef {import("./state.js").Group} Group
 */

const OF_ENTITIES = new Set(["Sessions", "Objects", "NV indices"]);

/** Whether each group is open. The reader can open and close groups. */
const isOpen = new Map([["PCRs", true], ["Sessions", true], ["Objects", true], ["NV indices", true], ["Lockout", true]]);

/**
 * The old values of what changed, by its place; null if it is new.
 * @typedef {Map<string, string | null>} Changed
 */

/** @param {State} before @param {State} after @param {string} when @param {Set<string>} used the handles in the step */
export function showDevice(before, after, when, used) {
  const pane = byId("device");
  const all = changesOf(before, after);
  const changed = new Map(all.map((it) => [keyOf(it.group, it.entity, it.name), it.before]));
  pane.replaceChildren(
    make("h2", {}, "The device", make("small", {}, when)),
    ...GROUPS.map((group) => {
      const those = after.groups.get(group) ?? new Map();
      const gone = [...(before.groups.get(group) ?? new Map()).keys()].filter((of) => OF_ENTITIES.has(group) && !those.has(of));
      return groupShown(group, those, changed, { used, gone });
    }),
  );
}

/** @param {string} group @param {string} entity @param {string} name */
const keyOf = (group, entity, name) => `${group}|${entity}|${name}`;

/** @param {Changed} changed @param {string} front */
const hasChanged = (changed, front) => [...changed.keys()].some((key) => key.startsWith(`${front}|`));

/** @param {string} group @param {Group} those @param {Changed} changed @param {{used: Set<string>, gone: string[]}} step */
function groupShown(group, those, changed, { used, gone }) {
  const left = gone.length ? make("p", { class: "inside" }, make("span", { class: "badge bad" }, "gone"), ` ${gone.join(", ")}`) : null;
  if (!those.size) return make("div", { class: "empty", "data-group": group }, group, make("span", { class: "dim" }, briefly(group, those)), left);
  const isChanged = hasChanged(changed, group);
  const head = make(
    "summary", {}, group, make("span", { class: "dim" }, briefly(group, those)),
    isChanged ? make("span", { class: "badge new" }, "changed") : null,
  );
  const inside = make("div", { class: "inside" }, ...insideOf(group, those, changed, used));
  const found = make("details", { open: isOpen.get(group) ?? isChanged, "data-group": group }, head, left, inside);
  head.addEventListener("click", () => isOpen.set(group, !found.hasAttribute("open")));
  return found;
}

/**
 * Opens a group, and brings it into view.
 * @param {string} group
 */
export function revealGroup(group) {
  const found = byId("device").querySelector(`[data-group="${group}"]`);
  if (found?.tagName === "DETAILS") found.setAttribute("open", "");
  found?.scrollIntoView({ block: "nearest" });
  byId("device").focus({ preventScroll: true });
}

/** @param {string} group @param {Group} those */
function briefly(group, those) {
  if (OF_ENTITIES.has(group)) return those.size ? String(those.size) : "none";
  if (group === "Lockout") return those.get("")?.get("failed tries") ?? "";
  if (group === "Clock") return those.get("")?.get("Clock") ?? "";
  if (group !== "PCRs") return "";
  if (!those.size) return "none before TPM2_Startup";
  const written = [...those].filter(([of, values]) => of && ![...values.values()].every(isBlank));
  return written.length ? `${written.length} written` : "all blank";
}

/** @param {string} group @param {Group} those @param {Changed} changed @param {Set<string>} used */
function insideOf(group, those, changed, used) {
  if (group === "PCRs") return pcrsShown(those, changed);
  const found = [];
  for (const [of, values] of those) {
    if (OF_ENTITIES.has(group)) {
      found.push(entityShown(group, of, values, changed, used.has(of) || those.size === 1));
    } else {
      if (of) found.push(make("h4", {}, of));
      found.push(valuesShown(group, of, values, changed));
    }
  }
  return found;
}

/**
 * Shows an object, a session or an index, open if the step uses or changed it.
 * @param {string} group @param {string} of @param {Map<string, string>} values @param {Changed} changed @param {boolean} isUsed
 */
function entityShown(group, of, values, changed, isUsed) {
  const isNew = [...values.keys()].every((name) => changed.get(keyOf(group, of, name)) === null);
  const words = [values.get("type") ?? values.get("kind"), values.get("hierarchy")].filter(Boolean).join(", ");
  return make(
    "details", { class: "entity", open: isUsed || hasChanged(changed, `${group}|${of}`) },
    make("summary", {}, make("code", {}, of), make("span", { class: "dim" }, words), isNew ? make("span", { class: "badge new" }, "new") : null),
    valuesShown(group, of, values, isNew ? new Map() : changed),
  );
}

/** @param {string} group @param {string} of @param {Map<string, string>} values @param {Changed} changed */
function valuesShown(group, of, values, changed) {
  const list = make("dl");
  for (const [name, value] of values) {
    const old = changed.get(keyOf(group, of, name));
    const isFlags = name === "attributes";
    const shown = old !== undefined ? make("span", { class: "new" }, value) : isFlags ? flagsShown(value) : value;
    const before = old ? make("span", { class: "dim" }, shortly(old), " → ") : null;
    list.append(make("dt", {}, name), make("dd", { class: isHexWord(value) ? "hex" : isFlags ? "flags" : false }, before, shown));
  }
  return list;
}

/** @param {string} words */
const flagsShown = (words) => words.split(", ").map((it) => make("span", { class: "flag" }, it));

const MOST_BEFORE = 24;

/**
 * Returns a shortened form of a value that was replaced.
 * @param {string} text
 */
const shortly = (text) => (isBlank(text) && text.length > 16 ? `${text.slice(0, 2)}..${text.slice(0, 2)}` : cut(text, MOST_BEFORE));

/**
 * Shows the PCRs that are not blank, with full values if the step changed them. A sentence says that the other
 * PCRs, or all PCRs, are blank.
 * @param {Group} those @param {Changed} changed
 */
function pcrsShown(those, changed) {
  const found = [];
  const still = make("dl");
  for (const [of, values] of those) {
    const isNew = [...values.keys()].some((bank) => changed.has(`PCRs|${of}|${bank}`));
    if (!of || [...values.values()].every(isBlank)) continue;
    if (isNew) found.push(make("h4", {}, of), valuesShown("PCRs", of, values, changed));
    else still.append(make("dt", {}, of), make("dd", { class: "hex", title: titleOf(values) }, cut(values.get("SHA-256") ?? "", 25)));
  }
  if (still.childElementCount) found.push(still);
  if (those.size) {
    const words = found.length ? "The others are blank" : "All are blank";
    found.push(make("p", { class: "dim" }, `${words}: 00..00, or ff..ff for 17 to 22.`), valuesShown("PCRs", "", those.get("") ?? new Map(), changed));
  }
  return found;
}

/** @param {Map<string, string>} values */
const titleOf = (values) => [...values].map(([bank, value]) => `${bank} ${value}`).join("\n");
