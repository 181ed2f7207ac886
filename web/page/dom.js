// Makes elements. Text becomes text nodes, so nothing in a script or a log is read as markup.

/** @typedef {Node | string | null | undefined | false} Child */

/**
 * @param {string} tag @param {Record<string, any>} [options] attributes, and listeners as `onclick`
 * @param {...(Child | Child[])} children
 */
export function make(tag, options = {}, ...children) {
  const element = document.createElement(tag);
  for (const [name, value] of Object.entries(options)) {
    if (value === false || value === undefined || value === null) continue;
    if (name.startsWith("on")) element.addEventListener(name.slice(2), value);
    else element.setAttribute(name, value === true ? "" : String(value));
  }
  for (const child of children.flat()) if (child) element.append(child);
  return element;
}

/** @param {string} id @returns {any} */
export const byId = (id) => /** @type {HTMLElement} */ (document.getElementById(id));

/**
 * Makes a list of names and values.
 * @param {[string, Child | Child[]][]} pairs
 */
export function listed(pairs) {
  const list = make("dl");
  for (const [name, value] of pairs) {
    const isHex = typeof value === "string" ? isHexWord(value) : true;
    list.append(make("dt", {}, name), make("dd", { class: isHex ? "hex" : false }, value));
  }
  return list;
}

/** @param {string} text */
export const isHexWord = (text) => /^[0-9a-f]{8,}/.test(text);

/** @param {string} title @param {string} [small] */
export const heading = (title, small) => make("h3", {}, title, small ? make("small", {}, small) : null);

/** @param {string} text @param {number} most */
export const cut = (text, most) => (text.length > most ? `${text.slice(0, most - 1)}…` : text);
