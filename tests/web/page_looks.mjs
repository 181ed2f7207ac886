// Tests what the page shows in a headless Chromium: page_looks.mjs ADDRESS. It prints a line for each condition, and the
// status is 1 if a condition does not hold.

import { createHash } from "node:crypto";
import { Browser } from "./browser.mjs";

const address = process.argv[2];
const browser = await Browser.start();
const said = [];
let isWrong = false;

function say(holds, what, more = "") {
  console.log(`${holds ? "yes" : "NO"}: ${what}${holds ? "" : ` (${more})`}`);
  isWrong ||= !holds;
}

async function open(options = { width: 1280, height: 800 }) {
  const page = await browser.open(address, options);
  await page.until("document.documentElement.dataset.played !== undefined");
  await page.front();
  said.push(page.said);
  return page;
}

const click = (page, id) => page.value(`document.getElementById("${id}").click()`);
const story = (page, at) => page.value(`document.querySelectorAll("#stories button")[${at}].click()`);
const count = (page, selector) => page.value(`document.querySelectorAll(${JSON.stringify(selector)}).length`);
const texts = (page, selector) => page.value(`[...document.querySelectorAll(${JSON.stringify(selector)})].map((it) => it.textContent)`);
const script = (page) => page.value("document.getElementById('text').value");

// The sizes of type, collected in all states.

const SIZES = `(() => {
  const found = new Set();
  const walk = document.createTreeWalker(document.body, NodeFilter.SHOW_TEXT);
  while (walk.nextNode()) {
    const it = walk.currentNode.parentElement;
    const isSeen = walk.currentNode.textContent.trim() && it.getClientRects().length;
    if (isSeen && !["SCRIPT", "STYLE", "NOSCRIPT", "OPTION"].includes(it.tagName)) found.add(getComputedStyle(it).fontSize);
  }
  return [...found];
})()`;
const sizes = new Set();
const measure = async (page) => { for (const it of await page.value(SIZES)) sizes.add(it); };

/** Shows the tooltip of each text that is cut off, and returns the texts that have none. */
const CUT = `(() => {
  const cut = [...document.body.querySelectorAll("*")].filter((it) => it.getClientRects().length && getComputedStyle(it).textOverflow === "ellipsis" && it.scrollWidth > it.clientWidth);
  for (const it of cut) it.dispatchEvent(new MouseEvent("mouseover", { bubbles: true }));
  return { count: cut.length, bare: cut.filter((it) => !it.title).map((it) => it.textContent) };
})()`;

async function wrongPin() {
  const page = await open();
  const text = await page.text("detail");
  say(text.includes("AUTH_FAIL, session 1 (98e)") && text.includes("The password is not that of 80000001. Bytes 3 and 4 differ."), "the page opens on a refusal and its cause", text.slice(0, 200));
  const cells = (kind) => page.value(`[...document.querySelectorAll(".${kind} .cells b")].map((it) => [it.firstChild.data, it.className, it.getBoundingClientRect().left])`);
  const [given, wanted] = [await cells("given"), await cells("wanted")];
  const shown = (those) => those.map(([hex, kind]) => hex + (kind ? "!" : "")).join(" ");
  const isUnder = given.every(([, , left], at) => left === wanted[at][2]);
  say(shown(given) === "37 33 31! 39!" && shown(wanted) === "37 33 39! 31!" && isUnder, "the two values stand byte under byte, and the bytes that differ are set off", `${given} ${wanted}`);
  const icon = await page.value("document.querySelector('link[rel=icon]').href.startsWith('data:image/svg+xml')");
  await page.write("do Startup 0");
  const brand = await texts(page, "#brand > *");
  say(icon && brand.join() === "tpmsim,A proved TPM 2.0 that says why it refuses", "it has an icon, and a name and a sentence that stay", brand.join());
  await page.close();
}

async function facesAboveFold() {
  for (const [width, height] of [[1280, 800], [390, 844]]) {
    const page = await open({ width, height });
    const low = await page.value("document.querySelector('.wanted .cells').getBoundingClientRect().bottom");
    say(low > 0 && low < height - 80, `${width} x ${height}: the cause and both values are seen without scrolling`, low);
    await page.close();
  }
}

const hash = (...parts) => createHash("sha256").update(Buffer.concat(parts)).digest();
const zeros = Buffer.alloc(32);
const extended = (value, event) => hash(value, hash(Buffer.from(event)));
const short = (value) => `${value.toString("hex").slice(0, 8)}…${value.toString("hex").slice(-8)}`;

/** Checks the picture of a PCR and of a policy with digests that node computes. */
async function pcrMoved() {
  const page = await open({ width: 1280, height: 1300 });
  await story(page, 1);
  const text = await page.text("detail");
  say(text.includes("PCR 11 changed after PolicyPCR demanded its value."), "a PCR that moved is named", text.slice(0, 200));
  const kernel = extended(zeros, "kernel 6.1 and initrd");
  const entered = extended(kernel, "enter-initrd");
  const left = extended(entered, "leave-initrd");
  const chain = await page.value("[...document.querySelectorAll('.chain li')].map((it) => [it.className, it.querySelector('p')?.firstChild.data.trim() ?? '', it.querySelector('code')?.textContent ?? ''])");
  const wanted = [["", "", "00..00"], ["", '+ "kernel 6.1 and initrd"', short(kernel)], ["", '+ "enter-initrd"', short(entered)], ["promise", "", ""], ["bad", '+ "leave-initrd"', short(left)]];
  say(JSON.stringify(chain) === JSON.stringify(wanted), "its chain has the digests of its events, and the event that came too late", JSON.stringify(chain));
  const pcr7 = extended(zeros, "secure boot on");
  const selection = Buffer.from("00000001000b03800800", "hex");
  const policy = hash(zeros, Buffer.from("0000017f", "hex"), selection, hash(pcr7, entered));
  const tree = await page.value("[...document.querySelectorAll('.tree > li')].map((it) => [it.className, it.querySelector('b').textContent])");
  const isTree = JSON.stringify(tree) === JSON.stringify([["", "Session 03000000"], ["bad", "PolicyPCR"], ["good", "is the authPolicy of 80000001"]]);
  say(isTree, "the policy is drawn, and its guilty assertion set off", JSON.stringify(tree));
  say((await page.value("document.querySelector('.tree > li:last-child code').title")) === policy.toString("hex"), "and ends with its digest");
  await measure(page);
  await page.value("document.querySelector('.chain .bad .as-link').click()");
  say((await page.text("detail")).startsWith("PCR_Event"), "a line in a picture leads there", (await page.text("detail")).slice(0, 100));
  await page.close();
}

async function branches() {
  const page = await open();
  await page.value("(document.getElementById('examples').value = 'sealing_policy', document.getElementById('examples').dispatchEvent(new Event('change')))");
  await page.until("document.documentElement.dataset.played === '48'");
  for (let step = 0; step < 30 && !(await texts(page, ".tree b")).includes("PolicyOR"); step += 1) await click(page, "forth");
  const branch = await page.value("[...document.querySelectorAll('.tree > li > ol > li')].map((it) => [it.className, it.querySelectorAll('ol > li').length])");
  say(JSON.stringify(branch) === '[["",1],["good",0]]', "PolicyOR has its branches, and how the other one was computed", JSON.stringify(branch));
  await page.close();
}

async function rsa() {
  const page = await open();
  await story(page, 2);
  say((await page.text("detail")).includes("This TPM has no RSA keys") && (await count(page, ".wanted")) === 2, "an RSA template: its type, and the two that the device has", (await page.text("detail")).slice(0, 200));
  say((await texts(page, ".dump .wrong")).join("") === "0001", "and only its type is set off in the bytes", (await texts(page, ".dump .wrong")).join(" "));
  await page.write("do GetRandom 8");
  await page.value("[...document.querySelectorAll('.why button')].find((it) => it.textContent === 'Put Startup before it').click()");
  await page.until("document.documentElement.dataset.played === '2'");
  say((await script(page)) === "do Startup 0\ndo GetRandom 8", "a key puts Startup before a command that lacks it", await script(page));
  await page.close();
}

async function device() {
  const page = await open();
  const lockout = "document.querySelector('#device [data-group=Lockout]')";
  await page.value(`${lockout}.querySelector("summary").click()`);
  const wasOpen = await page.value(`${lockout}.open`);
  await page.value("document.querySelector('.effect button').click()");
  const values = await page.value(`${lockout}.querySelector("dd").textContent`);
  say(!wasOpen && (await page.value(`${lockout}.open`)) && values === "0 of 5 → 1 of 5", "what changed is told at its place in the device, to which a button leads", values);
  await page.close();
}

async function edges() {
  const page = await open();
  const width = () => page.value("document.getElementById('script').offsetWidth");
  const before = await width();
  const [x, y] = await page.value("(() => { const it = document.getElementById('edge-script').getBoundingClientRect(); return [it.left, it.top + 80]; })()");
  for (const [type, by] of [["mousePressed", 0], ["mouseMoved", 90], ["mouseReleased", 90]]) await page.send("Input.dispatchMouseEvent", { type, x: x + by, y, button: "left", clickCount: 1 });
  const after = await width();
  await page.value("document.getElementById('edge-script').focus()");
  await page.key("ArrowLeft");
  say(Math.abs(after - before - 90) <= 2 && (await width()) === after - 24, "an edge between panes moves with the mouse and with the arrow keys", `${before} ${after} ${await width()}`);
  await page.close();
}

async function reference() {
  const page = await open();
  await page.value("document.activeElement.blur()");
  await page.key("r");
  say((await count(page, ".command")) === 47, "the reference has all commands", await count(page, ".command"));
  await measure(page);
  await page.type("nv_w");
  say((await texts(page, ".command .t-name")).join() === "NV_Write,NV_WriteLock", "it finds commands");
  await page.value("document.querySelector('.command button').click()");
  await page.until("document.getElementById('text').value.includes('\\ndo NV_Write ')");
  await page.value("document.getElementById('find').focus()");
  await page.key("Escape");
  say(await page.value("document.getElementById('drawer').hidden && document.activeElement.id === 'reference'"), "it writes one into the script, and Escape closes it");
  await page.close();
}

async function compared() {
  const page = await open();
  await click(page, "compare");
  const text = (await script(page)).replace("pw:37333139", "pw:37333931");
  await page.write(text);
  say((await texts(page, "#compared mark")).join() === "139,931", "two versions stand side by side, with their first difference set off", await page.text("compared"));
  const first = await texts(page, ".version.first .badge");
  say(first.join() === "AUTH_FAIL,ok", "and what came of each", first.join());
  await page.value("[...document.querySelectorAll('#compared button')].find((it) => it.textContent === 'Go to the difference').click()");
  say((await page.text("counter")) === "10 of 37", "a button leads there", await page.text("counter"));
  await measure(page);
  await page.close();
}

async function meant() {
  const page = await open();
  const wrong = [];
  for (const line of ["getrandom 8", "GetRandom 8", "TPM2_GetRandom 8", "do getrandom 8", "do GetRandm 8"]) {
    await page.write(`do Startup 0\n${line}`);
    const words = await page.text("under");
    await page.key("Tab");
    await page.until("document.documentElement.dataset.played === '2'", 5000).catch(() => {});
    if (words !== "Did you mean do GetRandom 8? Tab writes it." || (await script(page)) !== "do Startup 0\ndo GetRandom 8") wrong.push(`${line}: ${words}`);
  }
  say(!wrong.length, "a command in another form is understood, and Tab writes what was meant", wrong.join("; "));
  await page.write("do Startup 0\nhello\ndo PCR_Event 00000007 pw:- 6b65726e656c");
  say((await texts(page, ".side .said")).join() === '"kernel"', "hex that is text is said beside its line");
  const words = (selector) => page.value(`(() => {
    const it = [...document.querySelectorAll(".row ${selector}")].at(-1).getBoundingClientRect();
    const area = document.getElementById("text");
    area.dispatchEvent(new MouseEvent("mousemove", { clientX: it.left + 4, clientY: it.top + 4, bubbles: true }));
    return area.title;
  })()`);
  const found = [await words(".t-name"), await words(".t-handle"), await words(".t-parameter")];
  say(found[0].startsWith("TPM2_PCR_Event") && found[1].includes("pcrHandle: 00000007, PCR 7") && found[2].includes('eventData: 6b65726e656c, "kernel"'), "each word of a line says what it means under the pointer", found.join("; "));
  await page.value("document.querySelector('.dump [data-field=\"2\"]').dispatchEvent(new MouseEvent('mouseover', { bubbles: true }))");
  say((await page.value("document.querySelector('.dump').title")) === "commandCode: 0000013c, PCR_Event", "and so does each byte", await page.value("document.querySelector('.dump').title"));
  const { count: cut, bare } = await page.value(CUT);
  say(cut > 0 && !bare.length, "a text that is cut off has a tooltip", `${cut}: ${bare}`);
  await page.close();
}

/** Scrolls the editor to its end, and returns the height of the rows there, and that of the text area's text. */
const HEIGHTS = `(async () => {
  const area = document.getElementById("text");
  area.scrollTop = area.scrollHeight;
  await new Promise((go) => requestAnimationFrame(() => setTimeout(go)));
  const rows = [...document.querySelectorAll("#texts .row")].map((it) => ({ top: parseFloat(it.style.top), height: it.offsetHeight })).sort((one, other) => one.top - other.top);
  const parted = rows.filter(({ top }, at) => at && rows[at - 1].top + rows[at - 1].height !== top).length;
  const { top, height } = rows.at(-1);
  return { rows: top + height + 56, text: area.scrollHeight, least: area.clientHeight, parted };
})()`;

/** Checks that the page's rows are as high as the lines that the browser wraps in the text area. */
async function wrapped() {
  const wrong = [];
  let wide = 0;
  for (const width of [320, 390, 768, 1280, 1920]) {
    const page = await open({ width, height: 800 });
    await click(page, "tab-script");
    const names = await page.value("JSON.parse(document.getElementById('facts').textContent).examples.map(([name]) => name)");
    for (const name of names) {
      await page.value(`(delete document.documentElement.dataset.played, document.getElementById("examples").value = "${name}", document.getElementById("examples").dispatchEvent(new Event("change")))`);
      await page.until("document.documentElement.dataset.played !== undefined");
      const { rows, text, least, parted } = await page.value(HEIGHTS);
      if (Math.max(rows, least) !== text || parted) wrong.push(`${name} at ${width}: ${rows} and ${text}, ${parted}`);
      wide += text;
    }
    await page.close();
  }
  say(wide > 0 && !wrong.length, "lines wrap in all examples at all widths, as high as in the text area", wrong.join("; "));
  const page = await open();
  await page.write(`# ${"my own words ".repeat(20)}\ndo Startup 0`);
  const comment = await page.value("document.querySelector('.row').offsetHeight");
  say(comment >= 80, "the user's own comments wrap", comment);
  await page.value("(() => { const it = document.getElementById('text'); it.value = '# short\\n'.repeat(2001); it.dispatchEvent(new Event('input')); })()");
  say(await page.value("!document.getElementById('editor').classList.contains('wraps')"), "a script of more than 2,000 lines does not wrap");
  await page.close();
}

const SEEN = (id) => `(() => {
  const it = document.getElementById("${id}");
  const box = it.getBoundingClientRect();
  const top = document.elementFromPoint(box.left + box.width / 2, box.top + box.height / 2);
  return box.width > 20 && box.left >= 0 && box.right <= innerWidth && it.contains(top);
})()`;

async function widths() {
  for (const [width, height] of [[320, 640], [390, 844], [640, 400], [768, 900], [1280, 800], [1920, 1080]]) {
    const page = await open({ width, height });
    const wrong = [];
    for (const id of ["refusal", "help", "back", "forth"]) if (!(await page.value(SEEN(id)))) wrong.push(id);
    if (width <= 1000) await click(page, "menu");
    for (const id of ["examples", "tutorial", "reference", "compare", "open", "download", "link"]) if (!(await page.value(SEEN(id)))) wrong.push(id);
    if (await page.value("document.documentElement.scrollWidth > innerWidth")) wrong.push("sideways");
    if (await page.value("document.getElementById('form').scrollWidth > document.getElementById('form').clientWidth")) wrong.push("the hint");
    await measure(page);
    say(!wrong.length, `${width} x ${height}: all buttons are in reach, and nothing scrolls sideways`, wrong.join(" "));
    await page.close();
  }
  const page = await open({ width: 390, height: 844 });
  await click(page, "menu");
  await page.value("document.getElementById('tutorial').focus()");
  await page.key("Escape");
  say(await page.value("document.activeElement.id === 'menu' && !document.getElementById('tools').getClientRects().length"), "Escape closes the menu of a phone");
  await page.close();
}

try {
  await wrongPin();
  await facesAboveFold();
  await pcrMoved();
  await branches();
  await rsa();
  await device();
  await edges();
  await reference();
  await compared();
  await meant();
  await wrapped();
  await widths();
  const page = await open();
  await click(page, "tutorial");
  await measure(page);
  await click(page, "help");
  await measure(page);
  say([...sizes].sort().join() === "12px,13px,15px,20px", "four sizes of type, none below 12 pixels", [...sizes].join());
  say(!said.flat().length, "nothing on any console", said.flat().join("; "));
} finally {
  await browser.close();
}
process.exitCode = isWrong ? 1 : 0;
