// The largest script that the page takes. A browser needs about a second to lay out a longer text.

import { grouped } from "./words.js";

export const MOST_LINES = 50_000;
export const MOST_TEXT = 8 * 1024 * 1024;
const MEBIBYTE = 1024 * 1024;
const NEWLINE = 0x0a;
/** The size of a text that has too many characters, in words. */
export const OVER = `more than ${MOST_TEXT / MEBIBYTE} MiB of text`;
const LIMITS = `The page takes up to ${grouped(MOST_LINES)} lines and ${MOST_TEXT / MEBIBYTE} MiB.`;

/**
 * Returns the number of lines of a text. A newline at the end begins no line.
 * @param {string} text
 */
function linesIn(text) {
  let newlines = 0;
  for (let at = 0; at < text.length; at += 1) if (text.charCodeAt(at) === NEWLINE) newlines += 1;
  return text === "" || text.endsWith("\n") ? newlines : newlines + 1;
}

/**
 * Returns the sentences with which the page refuses a text.
 * @param {string} subject what has the text, with its verb @param {string} size in words
 * @param {string} remedy a sentence
 */
export const refusal = (subject, size, remedy) => `${subject} ${size}. ${LIMITS} ${remedy}`;

/**
 * Returns "" if the page takes a text, and otherwise the sentences with which it refuses the text.
 * @param {string} subject what has the text, with its verb @param {string} text
 * @param {string} remedy a sentence
 */
export function tooMuch(subject, text, remedy) {
  if (text.length > MOST_TEXT) return refusal(subject, OVER, remedy);
  const lines = linesIn(text);
  return lines > MOST_LINES ? refusal(subject, `${grouped(lines)} lines`, remedy) : "";
}
