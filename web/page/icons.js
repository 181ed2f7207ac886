// The icons of the page, each a path in a square of 16, and the page's own icon.

import { byId } from "./dom.js";

/** @type {Record<string, string>} */
const PATHS = {
  yes: "M3 8.5l3.5 3.5L13 4.5",
  no: "M4 4l8 8M12 4l-8 8",
  start: "M8 3v10M3 8h10",
  pcr: "M6.5 8h3M4.5 5.5a2.5 2.5 0 100 5 2.5 2.5 0 000-5zM11.5 5.5a2.5 2.5 0 100 5 2.5 2.5 0 000-5z",
  command: "M3 4.5L6.5 8 3 11.5M8.5 12H13",
  key: "M5 5.5a2.5 2.5 0 100 5 2.5 2.5 0 000-5zM7.5 8H14M11.5 8v2.5",
  place: "M8 14c3-3.5 4.5-5.5 4.5-7.5a4.5 4.5 0 00-9 0c0 2 1.5 4 4.5 7.5zM8 5v3",
  branch: "M8 14V9M8 9c0-3-5-2-5-6.5M8 9c0-3 5-2 5-6.5",
  memory: "M3 4h10v8H3zM3 8h10",
  lock: "M3.5 7.5h9v6h-9zM5.5 7.5V5a2.5 2.5 0 015 0v2.5",
};

/**
 * Draws an icon in the colour of the text around it.
 * @param {string} name @returns {Element}
 */
export function icon(name) {
  const { namespaceURI } = byId("mark");
  const drawn = document.createElementNS(namespaceURI, "svg");
  const line = document.createElementNS(namespaceURI, "path");
  for (const [option, value] of [["viewBox", "0 0 16 16"], ["class", "icon"], ["aria-hidden", "true"]]) drawn.setAttribute(option, value);
  line.setAttribute("d", PATHS[name]);
  drawn.append(line);
  return drawn;
}

/** Makes the mark next to the name the icon of the page. */
export function setPageIcon() {
  const link = document.createElement("link");
  link.rel = "icon";
  link.href = `data:image/svg+xml,${encodeURIComponent(new XMLSerializer().serializeToString(byId("mark")))}`;
  document.head.append(link);
}
