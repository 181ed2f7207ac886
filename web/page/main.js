// Starts the page: makes the device, and listens to the user.

import { Chip } from "./device.js";
import { byId, make } from "./dom.js";
import { listenToEdges } from "./edges.js";
import { facts, learn } from "./facts.js";
import { inflated, unpacked } from "./files.js";
import { setPageIcon } from "./icons.js";
import { byKey, showKeys, showPane, tabKey } from "./keys.js";
import { closeHero, exampleOf, Page } from "./page.js";
import { toggleReference } from "./reference.js";

const MOST_MODULE = 4 * 1024 * 1024;

/** @param {Page} page */
function listen(page) {
  const on = (/** @type {string} */ id, /** @type {() => void} */ act) => byId(id).addEventListener("click", act);
  on("back", () => page.go(-1));
  on("forth", () => page.go(1));
  on("refusal", () => page.goToRefusal(1));
  on("link", () => page.copyLink());
  on("open", () => byId("file").click());
  on("help", showKeys);
  on("hero-close", closeHero);
  on("compare", () => page.compare.toggle());
  on("reference", () => toggleReference({ insert: (line) => page.insert(line), example: (number) => page.chip.example(number) }));
  on("former", () => page.backToFormer());
  on("tutorial", () => (page.tutorial.isOpen ? page.tutorial.close() : page.openTutorial()));
  byId("file").addEventListener("change", () => {
    page.open(byId("file").files[0]);
    byId("file").value = "";
  });
  byId("slider").addEventListener("input", () => page.choose(Number(byId("slider").value), true));
  listenToMenus(page);
  listenToMenu();
  listenToEdges();
  listenToDrops(page);
  document.addEventListener("keydown", (event) => byKey(page, event));
  addEventListener("hashchange", () => page.openLink());
  addEventListener("resize", () => page.redraw());
  matchMedia("(prefers-color-scheme: dark)").addEventListener("change", () => page.redraw());
  for (const tab of document.querySelectorAll("#tabs button")) {
    tab.addEventListener("click", () => showPane(tab.getAttribute("data-pane") ?? ""));
    tab.addEventListener("keydown", (event) => tabKey(tab, /** @type {KeyboardEvent} */ (event)));
  }
}

/** @param {Page} page */
function listenToMenus(page) {
  const examples = byId("examples");
  for (const [name] of facts.examples) examples.append(make("option", { value: name }, name.replace(/_/g, " ")));
  examples.addEventListener("change", () => {
    page.tutorial.close();
    page.leaveLog();
    page.keepFormer();
    closeHero();
    page.load(exampleOf(examples.value));
    page.keepLink();
    examples.value = "";
  });
  const menu = byId("download");
  for (const [what, words] of DOWNLOADS) menu.append(make("option", { value: what }, words));
  menu.addEventListener("change", () => {
    page.download(menu.value);
    menu.value = "";
  });
}

/** Opens and closes the menu that contains the tools on a small screen, and shows cut texts whole. */
function listenToMenu() {
  const menu = byId("menu");
  const toggle = (/** @type {boolean} */ isOpen) => {
    menu.parentElement.classList.toggle("menu", isOpen);
    menu.setAttribute("aria-expanded", String(isOpen));
  };
  menu.addEventListener("click", () => toggle(menu.getAttribute("aria-expanded") !== "true"));
  byId("tools").addEventListener("change", () => toggle(false));
  document.addEventListener("click", ({ target }) => {
    const isTool = target instanceof Element && target.closest("#menu, #tools select");
    if (!isTool) toggle(false);
  });
  byId("tools").addEventListener("keydown", (/** @type {KeyboardEvent} */ { key }) => {
    if (key !== "Escape" || menu.getAttribute("aria-expanded") !== "true") return;
    toggle(false);
    menu.focus();
  });
  document.addEventListener("mouseover", ({ target }) => {
    if (!(target instanceof HTMLElement) || target.scrollWidth <= target.clientWidth) return;
    if (!target.title && getComputedStyle(target).textOverflow === "ellipsis") target.title = target.innerText;
  });
}

/** @param {(at: number) => void} choose */
function offerStories(choose) {
  byId("hero").hidden = location.hash.length > 1 || byId("log").textContent !== "null";
  byId("stories").append(...facts.stories.map(({ name }, at) => make("button", { type: "button", class: "chip", "aria-pressed": "false", onclick: () => choose(at) }, name)));
}

const DOWNLOADS = [
  ["script", "Script"], ["report", "Report: lines that cannot be read"], ["log", "Log: the script with its answers"],
  ["journal", "Journal, since power came on"], ["image", "Image, after this step"],
  ["state", "State text, after this step"],
];

/** @param {Page} page */
function listenToDrops(page) {
  document.addEventListener("dragover", (event) => {
    event.preventDefault();
    document.body.classList.add("drop");
  });
  document.addEventListener("dragleave", (event) => {
    if (!event.relatedTarget) document.body.classList.remove("drop");
  });
  document.addEventListener("drop", (event) => {
    event.preventDefault();
    document.body.classList.remove("drop");
    page.open(event.dataTransfer?.files[0]);
  });
}

async function start() {
  learn(JSON.parse(byId("facts").textContent));
  showPane("script");
  setPageIcon();
  /** @type {Page | undefined} */
  let page;
  offerStories((at) => page?.chooseStory(at));
  let chip;
  try {
    chip = await Chip.load(await inflated(unpacked(byId("module").textContent), MOST_MODULE), 2);
  } catch (error) {
    byId("note").textContent = `This browser does not run the device, which is WebAssembly. ${error}`;
    byId("note").classList.add("bad");
    return;
  }
  page = new Page(chip);
  listen(page);
  if (page.told.log) page.openLog(page.told.log);
  else if (!(await page.openLink())) page.greet();
  document.documentElement.dataset.ready = String(Math.round(performance.now()));
}
start();
