// Finds response codes in texts, and says what they mean.

import { hexNumber } from "./bytes.js";
import { facts } from "./facts.js";

const MOST_CODES = 8;
const NAME = /^(?:TPM_|TPM2_|TSS2_)?(?:RC_)?([A-Z][A-Z_]+[A-Z][0-9]?)(?:\/([hps])([0-9]))?$/;
const HEX = /^(0x)?([0-9a-f]{1,8})$/i;
/** Codes in the messages of tpm2-tools, libtss2 and Linux, which prints them in decimal. */
const IN_TEXT = /\bA TPM error \(([0-9]{1,10})\)|\b0x([0-9a-f]{2,8})\b|\b(?:TPM_RC|TPM2_RC)_([A-Z_]+[A-Z][0-9]?)\b/gi;
const ABOUT_CODES = /error|code|fail|\brc\b|response/i;
const HAS_PLACE = 0x80;
const IS_PARAMETER = 0x40;
const OF_PLACES = { h: 0x100, p: 0x140, s: 0x900 };

/** @param {number} code */
const baseOf = (code) => (code & HAS_PLACE ? code & 0xbf : code & 0xfff);

/** @param {number} code */
const layerOf = (code) => code >>> 16;

/** @param {number} code */
const isOfTpm = (code) => [0, 11].includes(layerOf(code));

/** @param {number} code */
const isKnown = (code) => isOfTpm(code) && ((code & 0xffff) === 0 || baseOf(code & 0xffff) in facts.codes);

/** @param {string} name @returns {number | null} */
function numberOf(name) {
  const found = Object.entries(facts.codes).find(([, [it]]) => it === name);
  return found ? Number(found[0]) : null;
}

/**
 * Returns the code that a single word names, such as 0x98e, 98e or TPM_RC_AUTH_FAIL; null if it names none.
 * @param {string} word @returns {number | null}
 */
function codeOf(word) {
  const named = NAME.exec(word);
  const base = named ? numberOf(named[1].replace(/^RC_/, "")) : null;
  if (named && base !== null) {
    const place = /** @type {"h" | "p" | "s" | undefined} */ (named[2]);
    return place ? base + OF_PLACES[place] + 0x100 * (Number(named[3]) - 1) : base;
  }
  const hex = HEX.exec(word);
  const code = hex ? parseInt(hex[2], 16) : 0;
  return hex && (isKnown(code) || (hex[1] && layerOf(code) in facts.layers)) ? code : null;
}

/**
 * Returns the response codes of a text, each once.
 * @param {string} text
 */
export function codesIn(text) {
  const alone = codeOf(text.trim());
  if (alone !== null) return [alone];
  /** @type {Set<number>} */
  const found = new Set();
  for (const line of text.split("\n")) {
    for (const [, decimal, hex, name] of line.matchAll(IN_TEXT)) {
      const code = name ? numberOf(name) : decimal ? Number(decimal) : parseInt(hex, 16);
      if (code && (name || (isKnown(code) && (decimal || ABOUT_CODES.test(line))))) found.add(code);
    }
  }
  return [...found].slice(0, MOST_CODES);
}

/** @param {number} code */
function placeWords(code) {
  const number = (code >> 8) & 15;
  if (!(code & HAS_PLACE)) return "";
  if (code & IS_PARAMETER) return number ? `, parameter ${number}` : ", a parameter";
  if (!number) return "";
  return number > 8 ? `, session ${number - 8}` : `, handle ${number}`;
}

/**
 * Returns comments of a script that say what a code means, and which checks return it.
 * @param {number} code
 */
export function codeWords(code) {
  const number = code & 0xffff;
  if (!isOfTpm(code)) return `# ${`0x${hexNumber(code, 1)}`} is a code of ${facts.layers[layerOf(code)]} in libtss2, and not of the TPM\n# Its log says what failed: set TSS2_LOG=all+debug, and give that log.\n`;
  if (!number) return "# SUCCESS (000)\n# The TPM accepted the command.\n";
  const [name, words, checks] = facts.codes[baseOf(number)];
  const place = placeWords(number);
  const letter = place ? `/${place[2]}` : "";
  const own = checks.filter(([it]) => !place || ["", letter, letter + place.split(" ").at(-1)].includes(it)).map(([, it]) => it);
  const said = own.length ? `These checks of tpmsim return it: ${own.join(", ")}.` : "No check of tpmsim returns it.";
  return `# ${name} (${hexNumber(number, 3)})${place}\n# ${words[0].toUpperCase()}${words.slice(1)}. ${said}\n`;
}
