// Tests whether people who use only keys, or a screen reader, can use the page in Chromium:
// page_access.mjs ADDRESS. It prints a line for each condition, and the status is 1 if a condition
// does not hold.

import { Browser, CTRL, SHIFT, sleep } from "./browser.mjs";

const address = process.argv[2];
const browser = await Browser.start();
let isWrong = false;

function say(holds, what, more = "") {
  console.log(`${holds ? "yes" : "NO"}: ${what}${holds ? "" : ` (${more})`}`);
  isWrong ||= !holds;
}

async function open(options = {}) {
  const page = await browser.open(address, options);
  await page.until("document.documentElement.dataset.played !== undefined");
  await page.front();
  return page;
}

const focused = (page) => page.value("document.activeElement.id || document.activeElement.textContent");
const REFUSED = "do Startup 0\ndo NV_DefineSpace OWNER pw:- - 01000001000b0002000200000008\ndo NV_Read OWNER 01000001 pw:- 8 0\ndo GetRandom x";
const NO_ROLES = new Set(["generic", "none", "unknown", "presentation", undefined]);

/** Returns the elements that can get the focus but have no role or no name. */
async function nameless(page) {
  const { nodes } = await page.send("Accessibility.getFullAXTree", {});
  const canFocus = (it) => !it.ignored && it.properties?.some(({ name, value }) => name === "focusable" && value.value === true);
  const bad = nodes.filter((it) => canFocus(it) && it.role?.value !== "RootWebArea" && (NO_ROLES.has(it.role?.value) || !it.name?.value));
  return bad.map((it) => `${it.role?.value} ${it.name?.value}`);
}

async function tree() {
  const wrong = [];
  for (const width of [360, 1280]) {
    const page = await open({ width, height: 800 });
    const look = async (where) => wrong.push(...(await nameless(page)).map((it) => `${where} at ${width}: ${it}`));
    await look("the start");
    await page.write(REFUSED);
    await page.key(" ", CTRL);
    await look("completions");
    for (const pane of ["detail", "device"]) {
      await page.value(`document.getElementById("tab-${pane}").click()`);
      await look(pane);
    }
    await page.value("document.getElementById('tab-script').click()");
    await page.value("document.getElementById('tutorial').click()");
    await look("the tutorial");
    await page.value("document.getElementById('help').click()");
    await look("the keys");
    await page.close();
  }
  say(!wrong.length, "all that gets the focus has a role and a name", wrong.join("; "));
}

async function announced() {
  const page = await open();
  await page.write("do Startup 0\ndo GetRandom x");
  await page.until("document.getElementById('said').textContent !== ''", 5000).catch(() => {});
  const words = await page.text("said");
  const { nodes } = await page.send("Accessibility.getFullAXTree", {});
  const live = nodes.filter((it) => it.role?.value === "status").length;
  say(words === "Line 2: column 11: not what is wanted; wanted: u16." && live >= 2, "the fault of the caret's line is announced", `${words}, ${live}`);
  say((await page.value("document.getElementById('text').getAttribute('aria-invalid')")) === "true", "and the text is said to be at fault");
  await page.write("do Startup 0\ndo Startup 0");
  await page.until("document.getElementById('said').textContent.includes('INITIALIZE')", 5000).catch(() => {});
  say((await page.text("said")) === "Line 2: INITIALIZE.", "and so is what came of a line", await page.text("said"));
  await page.value("document.getElementById('back').click()");
  const slider = await page.value("document.getElementById('slider').getAttribute('aria-valuetext')");
  say(slider === "step 1 of 2, Startup, line 1: ok", "the slider says its step", slider);
  await page.close();
}

const ORDER = [
  ...["examples", "tutorial", "reference", "compare", "open", "download", "link", "help", "A wrong PIN", "A PCR that moved", "An RSA key"],
  ...["hero-close", "back", "slider", "forth", "refusal", "text", "edge-script", "detail"],
];

async function order() {
  const page = await open();
  await page.value("document.activeElement.blur()");
  const found = [];
  for (let count = 0; count < ORDER.length; count += 1) {
    await page.key("Tab");
    found.push(await focused(page));
  }
  say(found.join() === ORDER.join(), "Tab goes from the top to the script and its step", found.join());
  const seen = [];
  for (let count = 0; count < 60 && !seen.includes("device"); count += 1) {
    await page.key("Tab");
    seen.push(await focused(page));
  }
  say(seen.includes("device"), "and on to the device", seen.slice(-5).join());
  await page.key("Tab", SHIFT);
  say((await focused(page)) !== "device", "and back");
  await page.close();
}

/** A script for the page that finds the visible texts whose contrast is below level AA. */
const FAINT = `(() => {
  const parsed = (text) => { const found = text.match(/[\\d.]+/g).map(Number); return text.startsWith("color(") ? [...found.slice(0, 3).map((it) => it * 255), found[3] ?? 1] : [...found.slice(0, 3), found[3] ?? 1]; };
  const over = (top, below) => [0, 1, 2].map((it) => top[it] * top[3] + below[it] * (1 - top[3])).concat(1);
  const ground = (element) => {
    const layers = [];
    for (let it = element; it; it = it.parentElement) layers.push(parsed(getComputedStyle(it).backgroundColor));
    return layers.reverse().reduce((below, it) => over(it, below), [255, 255, 255, 1]);
  };
  const luminance = (colour) => { const [red, green, blue] = colour.map((it) => it / 255).map((it) => (it <= 0.04045 ? it / 12.92 : ((it + 0.055) / 1.055) ** 2.4)); return 0.2126 * red + 0.7152 * green + 0.0722 * blue; };
  const faint = [];
  let count = 0;
  const walk = document.createTreeWalker(document.body, NodeFilter.SHOW_TEXT);
  while (walk.nextNode()) {
    const element = walk.currentNode.parentElement;
    const isSeen = walk.currentNode.textContent.trim() && element.getClientRects().length && !["SCRIPT", "STYLE", "TEXTAREA", "OPTION"].includes(element.tagName);
    if (!isSeen || element.closest(":disabled")) continue;
    count += 1;
    const below = ground(element);
    const [low, high] = [luminance(over(parsed(getComputedStyle(element).color), below)), luminance(below)].sort((one, other) => one - other);
    if ((high + 0.05) / (low + 0.05) < 4.5) faint.push(element.tagName + " " + element.className + " " + walk.currentNode.textContent.slice(0, 20) + " " + ((high + 0.05) / (low + 0.05)).toFixed(2));
  }
  return { count, faint: [...new Set(faint)].slice(0, 6) };
})()`;

async function contrast() {
  for (const isDark of [false, true]) {
    const page = await open({ width: 1280, height: 900, isDark });
    const faint = [];
    let count = 0;
    const look = async () => {
      const found = await page.value(FAINT);
      count += found.count;
      faint.push(...found.faint);
    };
    await look();
    await page.write(REFUSED);
    await page.key("ArrowUp");
    await page.until("document.querySelector('#detail .why')");
    await look();
    await page.value("document.querySelector('.bytes').dispatchEvent(new KeyboardEvent('keydown', { key: 'ArrowDown', bubbles: true }))");
    await page.key("ArrowDown");
    await page.key(" ", CTRL);
    await look();
    await page.value("document.getElementById('tutorial').click()");
    await look();
    await page.value("document.getElementById('help').click()");
    await look();
    say(count > 500 && !faint.length, `the contrast of all texts is AA, ${isDark ? "dark" : "light"}`, `${count}: ${faint.join("; ")}`);
    await page.close();
  }
}

const isDone = "document.getElementById('lesson-done').innerText.includes('Done.')";

/** Moves by Tab, forward or back, to the element with this id. */
async function tabTo(page, id, modifiers = 0) {
  for (let count = 0; count < 30; count += 1) {
    if ((await focused(page)) === id) return;
    await page.key("Tab", modifiers);
  }
}

/** Does the tutorial with only the keyboard: types the solution of the first task, with
 * completions, and has the page show the solutions of the others. */
async function tutorial() {
  const page = await open();
  const wrong = [];
  await page.value("document.activeElement.blur()");
  await tabTo(page, "tutorial");
  await page.key("Enter");
  for (let at = 1; at <= 10; at += 1) {
    if ((await focused(page)) !== "lesson-title") wrong.push(`step ${at}: the focus is on ${await focused(page)}`);
    if (at === 1) await typedTask(page);
    else {
      await tabTo(page, "lesson-show");
      await page.key("Enter");
    }
    await page.until(isDone, 8000).catch(() => wrong.push(`step ${at} is not done`));
    await tabTo(page, "lesson-next", at === 1 ? SHIFT : 0);
    await page.key("Enter");
    await sleep(50);
  }
  say(!wrong.length, "keys alone go through the tutorial", wrong.join("; "));
  say((await focused(page)) === "text", "and are in the script after it", await focused(page));
  await page.close();
}

async function typedTask(page) {
  await tabTo(page, "text");
  await page.key("ArrowDown");
  await page.key("ArrowDown");
  for (const letter of "do GetR") await page.type(letter);
  await page.until("!document.getElementById('choices').hidden");
  await page.key("Enter");
  await page.type("8");
}

try {
  await tree();
  await announced();
  await order();
  await contrast();
  await tutorial();
} finally {
  await browser.close();
}
process.exitCode = isWrong ? 1 : 0;
