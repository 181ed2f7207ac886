// Shows the bytes of a buffer next to its fields. With the pointer, or with the arrow keys in the table,
// the user highlights a field together with its bytes.

import { hexNumber, hexOf } from "./bytes.js";
import { cut, make } from "./dom.js";

/**
 * @typedef {import("./fields.js").Field} Field
 * @typedef {import("./plain.js").Plain} Plain
 * @typedef {{bytes: Uint8Array, fields: Field[], wrong: Field | null, plain: Plain | null}} Shown the bytes
 *   as they are sent, and their fields, some of which are decrypted
 */

const SHOWN_DIGITS = 44;
const LONG = 512;
const PART_WORDS = { header: "header", handle: "handles", entry: "authorization", parameter: "parameters", rest: "left over" };

/** @param {Shown} shown @param {number} perRow */
export function bytesShown(shown, perRow) {
  const hex = dump(shown, perRow);
  const both = make("div", { class: shown.bytes.length > LONG ? "bytes long" : "bytes" }, hex, table(shown));
  both.addEventListener("mouseover", (event) => {
    const field = fieldAt(event.target);
    hex.title = field === null ? "" : fieldWords(shown, Number(field));
    light(both, field);
  });
  both.addEventListener("mouseleave", () => light(both, null));
  both.addEventListener("keydown", (event) => rowByKey(both, event));
  return both;
}

/** @param {EventTarget | null} target */
const fieldAt = (target) =>
  target instanceof Element ? target.closest("[data-field]")?.getAttribute("data-field") ?? null : null;

/**
 * Says what a field is.
 * @param {Shown} shown @param {number} number
 */
function fieldWords({ bytes, fields }, number) {
  const field = fields[number];
  return field ? fieldMeaning(bytes, field) : PART_WORDS.rest;
}

/**
 * Says the name of a field, its value and its meaning.
 * @param {Uint8Array} bytes @param {Field} field
 */
export function fieldMeaning(bytes, { name, meaning, at, front, size, isGroup }) {
  const hex = isGroup ? "" : cut(hexOf(bytes.subarray(at + front, at + size)), SHOWN_DIGITS);
  return `${name}: ${[hex, meaning].filter(Boolean).join(", ")}`;
}

/** @param {Element} both @param {string | null} field */
function light(both, field) {
  for (const it of both.querySelectorAll(".on")) it.classList.remove("on");
  if (field === null) return;
  for (const it of both.querySelectorAll(`[data-field="${field}"]`)) it.classList.add("on");
}

/** @param {Element} both @param {KeyboardEvent} event */
function rowByKey(both, event) {
  const by = { ArrowDown: 1, ArrowUp: -1 }[event.key];
  if (!by || event.altKey) return;
  const rows = [...both.querySelectorAll("tr[data-field]")];
  const at = rows.findIndex((row) => row.classList.contains("on"));
  const next = rows[at < 0 ? (by > 0 ? 0 : rows.length - 1) : at + by];
  if (!next) return;
  event.preventDefault();
  light(both, next.getAttribute("data-field"));
  next.scrollIntoView({ block: "nearest" });
}

/**
 * Returns, for each byte, the number of the field that contains it.
 * @param {Shown} shown
 */
function ownersOf({ bytes, fields }) {
  const owners = new Array(bytes.length).fill(-1);
  fields.forEach((field, number) => {
    const size = field.isGroup ? field.front : field.size;
    owners.fill(number, field.at, field.at + size);
  });
  return owners;
}

/** @param {Field} field @param {Field | null} outer */
const isWithin = (field, outer) =>
  outer !== null && field.at >= outer.at && field.at + field.size <= outer.at + outer.size;

/** @param {Shown} shown @param {number} perRow */
function dump(shown, perRow) {
  const { bytes, fields, wrong } = shown;
  const owners = ownersOf(shown);
  const hex = hexOf(bytes);
  const found = make("pre", { class: "dump", "aria-hidden": "true" });
  for (let first = 0; first < bytes.length; first += perRow) {
    found.append(make("i", {}, `${hexNumber(first, 4)} `));
    for (let at = first; at < Math.min(first + perRow, bytes.length); at += 1) {
      const field = fields[owners[at]];
      const kinds = [
        `of-${field?.sort ?? "rest"}`, owners[at] !== owners[at - 1] && at > first ? "first" : "",
        field && isWithin(field, wrong) ? "wrong" : "",
      ];
      found.append(make("b", { class: kinds.join(" ").trim() || false, "data-field": owners[at] }, hex.slice(2 * at, 2 * at + 2)));
    }
    found.append("\n");
  }
  return found;
}

/** @param {Shown} shown */
function table(shown) {
  const { bytes, fields, wrong, plain } = shown;
  const body = make("tbody");
  let part = "";
  fields.forEach((field, number) => {
    if (field.sort !== part && field.sort !== "header") body.append(make("tr", { class: `part of-${field.sort}` }, make("td", { colspan: 2 }, PART_WORDS[field.sort])));
    part = field.sort;
    const name = make("td", {}, field.name);
    name.style.setProperty("--depth", String(field.depth));
    const isWrong = isWithin(field, wrong);
    const values = [valueShown(bytes, field), plainShown(field, plain), make("span", { class: "dim" }, field.meaning)];
    body.append(make("tr", { class: isWrong ? "wrong" : false, "data-field": number }, name, make("td", {}, values)));
  });
  return make("table", { tabindex: 0, "aria-label": "Fields; the arrow keys light their bytes" }, body);
}

/** @param {Uint8Array} bytes @param {Field} field */
function valueShown(bytes, field) {
  if (field.isGroup) return null;
  const hex = hexOf(bytes.subarray(field.at + field.front, field.at + field.size));
  if (!hex) return null;
  const isCut = hex.length > SHOWN_DIGITS;
  return make("span", { class: "value", title: isCut ? hex : false }, cut(hex, SHOWN_DIGITS));
}

/** @param {Field} field @param {Plain | null} plain */
function plainShown(field, plain) {
  const isWithinPlain = plain && field.at < plain.to && field.at + field.size > plain.from;
  if (!isWithinPlain || field.isGroup) return null;
  const hex = hexOf(plain.bytes.subarray(field.at + field.front, field.at + field.size));
  return make("span", { class: "value" }, "decrypted ", make("span", { class: "new", title: hex.length > SHOWN_DIGITS ? hex : false }, cut(hex, SHOWN_DIGITS) || "empty"));
}
