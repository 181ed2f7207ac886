// Checks of arguments. A check that fails throws BadArgument, which names the argument.

import { BadArgument } from "./errors.js";

/**
 * Whether an array has lost its bytes, because its buffer was transferred or shortened. JavaScript
 * has no property that says so before ECMAScript 2024, but every method of such an array throws.
 * @param {Uint8Array} given
 */
function isLost(given) {
  try {
    Uint8Array.prototype.keys.call(given);
    return false;
  } catch {
    return true;
  }
}

/**
 * Returns the argument if it is a Uint8Array, such as node's Buffer. It may come from another
 * window.
 * @param {string} name
 * @param {unknown} given
 * @returns {Uint8Array}
 */
export function bytes(name, given) {
  if (Object.prototype.toString.call(given) !== "[object Uint8Array]") {
    throw new BadArgument(name, "a Uint8Array");
  }
  const checked = /** @type {Uint8Array} */ (given);
  if (isLost(checked)) {
    throw new BadArgument(name, "there any more: its buffer was transferred or shortened");
  }
  return checked;
}

/**
 * @param {string} name
 * @param {unknown} given
 * @param {number} size
 */
export function bytesOf(name, given, size) {
  const checked = bytes(name, given);
  if (checked.length !== size) throw new BadArgument(name, `of ${size} bytes`);
  return checked;
}

/**
 * @param {string} name
 * @param {unknown} given
 */
export function text(name, given) {
  if (typeof given !== "string") throw new BadArgument(name, "a string");
  return given;
}

/**
 * Returns the argument, if it is an integer from 0 to `largest`.
 * @param {string} name
 * @param {unknown} given
 * @param {number} largest
 */
export function number(name, given, largest) {
  if (!Number.isInteger(given) || Number(given) < 0 || Number(given) > largest) {
    throw new BadArgument(name, `a whole number from 0 to ${largest}`);
  }
  return Number(given);
}

/**
 * @param {string} name
 * @param {unknown} given
 */
export function truth(name, given) {
  if (typeof given !== "boolean") throw new BadArgument(name, "true or false");
  return given;
}

/**
 * Returns the options, if all of them have known names.
 * @template {object} Options
 * @param {Options | undefined} given
 * @param {readonly (keyof Options & string)[]} names
 * @returns {Options}
 */
export function options(given, names) {
  if (given === undefined) return /** @type {Options} */ ({});
  if (given === null || typeof given !== "object") throw new BadArgument("options", "an object");
  for (const name of Object.keys(given)) {
    if (!names.some((it) => it === name)) throw new BadArgument(name, `one of ${names.join(", ")}`);
  }
  return given;
}
