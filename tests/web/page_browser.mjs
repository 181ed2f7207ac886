// Tests the page in a headless Chromium: page_browser.mjs ADDRESS. It prints a line for each
// condition, and the status is 1 if a condition does not hold.

import fs from "node:fs";
import zlib from "node:zlib";
import { ALT, Browser, CTRL, sleep } from "./browser.mjs";

const [address, explainedPage, scripts] = process.argv.slice(2);
const browser = await Browser.start();
const pages = [];
let isWrong = false;

function say(holds, what, more = "") {
  console.log(`${holds ? "yes" : "NO"}: ${what}${holds ? "" : ` (${more})`}`);
  isWrong ||= !holds;
}

async function open(options = {}, fragment = "") {
  const page = await browser.open(address + fragment, options);
  await page.until("document.documentElement.dataset.played !== undefined");
  pages.push(page);
  return page;
}

const click = (page, id) => page.value(`document.getElementById("${id}").click()`);
const bad = (page) => page.value("[...document.querySelectorAll('.side .out.bad')].map((it) => it.textContent)");
const script = (page) => page.value("document.getElementById('text').value");
const facts = (page) => page.value("JSON.parse(document.getElementById('facts').textContent)");

/** Puts a file on the page, as if a user dropped it there. */
const drop = (page, name, bytes) => page.value(`(async () => {
  const bytes = Uint8Array.from(atob(${JSON.stringify(Buffer.from(bytes).toString("base64"))}), (it) => it.charCodeAt(0));
  const data = new DataTransfer();
  data.items.add(new File([bytes], ${JSON.stringify(name)}));
  document.dispatchEvent(new DragEvent("drop", { dataTransfer: data, bubbles: true, cancelable: true }));
  await new Promise((done) => setTimeout(done, 300));
})()`);

/** Returns the bytes of a download. */
const taken = (page, what) => page.value(`new Promise((done) => {
  const before = URL.createObjectURL;
  URL.createObjectURL = (blob) => {
    blob.arrayBuffer().then((it) => done(btoa(String.fromCharCode(...new Uint8Array(it)))));
    URL.createObjectURL = before;
    return before.call(URL, blob);
  };
  const menu = document.getElementById("download");
  menu.value = "${what}";
  menu.dispatchEvent(new Event("change"));
})`).then((it) => Buffer.from(it, "base64"));

async function examples(page) {
  const wrong = [];
  for (const [name, text] of (await facts(page)).examples) {
    await page.value(`(delete document.documentElement.dataset.played, document.getElementById("examples").value = "${name}", document.getElementById("examples").dispatchEvent(new Event("change")))`);
    await page.until("document.documentElement.dataset.played !== undefined");
    const wanted = fs.readFileSync(`${scripts}/examples/${name}.trace`, "latin1").split("\n").filter((it) => / L\d \+/.test(it)).length;
    const steps = (await page.value("document.getElementById('slider').max")) - 0 + 1;
    const powers = text.split("\n").filter((it) => it === "power").length;
    if (steps !== wanted + powers || (await script(page)) !== text) wrong.push(`${name}: ${steps} steps, ${wanted} in the trace`);
  }
  say(!wrong.length, "every example plays, with as many steps as its trace has", wrong.join("; "));
}

const FAULTS = [
  ["do Foo", "BadName: command"], ["do GetRandom x", "BadField 11: u16"], ["do GetRandom", "Missing: u16"],
  ["do GetRandom 70000", "Range 11: u16"], ["cmd 8", "BadField 1: hex"], ["loc 9", "Range 1: 0 to 4"],
  ["entropy", "Missing: 1 to 256 bytes of hex"], ["hello", "BadName: do, cmd, loc, wait, entropy or power"],
  [`do NV_Write OWNER 01000001 pw:- ${"00".repeat(4090)} 0`, "TooLong: at most 4096 bytes"],
];

async function faults(page) {
  await page.write(`${FAULTS.map(([line]) => line).join("\n")}\nwait 4294967295\nwait 1\n`);
  const shown = await bad(page);
  const wanted = [...FAULTS.map(([, fault]) => fault), "Range 1: u32"];
  say(JSON.stringify(shown) === JSON.stringify(wanted), "every fault is beside its line, as tpmsim check has it", shown.join("; "));
  await page.write("do Startup 0\ndo NV_Write OWNER 01000001 pw:- zz 0");
  say((await page.text("under")) === "column 30: not what is wanted; wanted: Buffer", "the fault of the caret's line is under it", await page.text("under"));
}

async function keyboard(page) {
  await page.write("do Startup 0\ndo NV_DefineSpace OWNER pw:- - 01000001000b0002000200000008\n");
  for (const letter of "do NV_W") await page.type(letter);
  await page.until("!document.getElementById('choices').hidden");
  say((await page.text("choices")).startsWith("NV_Write"), "a command is completed", await page.text("choices"));
  await page.key("Enter");
  await page.until("document.getElementById('choices').innerText.includes('OWNER')");
  await page.key("Enter");
  await page.until("document.getElementById('choices').innerText.includes('01000001')");
  await page.key("Tab");
  say((await script(page)).endsWith("\ndo NV_Write OWNER 01000001 "), "a handle of the device is completed", await script(page));
  await page.key("Escape");
  await page.type("pw:- 0011 0");
  await page.key(" ", CTRL);
  const at = () => page.text("counter");
  await page.key("ArrowUp", ALT);
  const up = await at();
  await page.key("ArrowDown", ALT);
  say(up === "2 of 3" && (await at()) === "3 of 3", "Alt and the arrows go through the steps", `${up}, ${await at()}`);
  await page.key("F6");
  const inDetail = await page.value("document.activeElement.id");
  await page.key("k");
  await page.key("k");
  say(inDetail === "detail" && (await at()) === "1 of 3", "F6 goes to the step, and k back", `${inDetail}, ${await at()}`);
  await page.key("/");
  say((await page.value("document.activeElement.id")) === "text", "a slash goes to the script");
  await page.value("document.querySelector('#detail table').focus()");
  await page.key("ArrowDown");
  say((await page.value("document.querySelectorAll('.dump .on').length")) === 2, "an arrow in the table lights the field's bytes");
  await page.value("document.getElementById('slider').focus()");
  await page.key("ArrowRight");
  say((await at()) === "2 of 3", "an arrow on the slider goes on", await at());
  await page.value("document.activeElement.blur()");
  await page.key("?");
  say(await page.value("document.getElementById('keys').open"), "a question mark shows the keys");
}

/** Checks that the key Home shows the start of a long line, which the line numbers must not hide. */
async function longLine(page) {
  const scrolled = () => page.value("document.getElementById('text').scrollLeft");
  await page.write(`do Startup 0\ncmd ${"80".repeat(800)}`);
  await page.key("Home");
  await page.key("End");
  await page.until("document.getElementById('text').scrollLeft > 100");
  await page.key("Home");
  await page.until("document.getElementById('text').scrollLeft < 100");
  say((await scrolled()) === 0, "Home shows the start of a long line", await scrolled());
}

async function names(page) {
  const { nodes } = await page.send("Accessibility.getFullAXTree", {});
  const role = (it) => it.role?.value;
  const nameless = nodes.filter((it) => !it.ignored && ["button", "combobox", "slider", "textbox", "tab", "dialog", "link", "listbox", "article", "region"].includes(role(it)) && !it.name?.value);
  say(!nameless.length, "all that can be used has a name", nameless.map(role).join(" "));
}

/** Returns the text of a row in a section of docs/table. */
function rowOf(file, heading, row) {
  const table = fs.readFileSync(new URL(`../../docs/table/${file}`, import.meta.url), "utf8");
  return row.exec(table.slice(table.indexOf(`\n## ${heading}\n`)))[1];
}

async function refusal(page) {
  await page.write("do Startup 0\ndo NV_DefineSpace OWNER pw:- - 01000001000b0002000200000008\ndo NV_Read OWNER 01000001 pw:- 8 0");
  const text = await page.text("detail");
  const link = await page.value("document.querySelector('#detail .why a').getAttribute('href')");
  const sentence = rowOf("nv.md", "Checks of a read", /^3\. (.*)$/m);
  say(text.includes("Refused by check A3.") && text.includes(sentence), "a refusal has its check and its sentence", `${sentence}; ${text.slice(0, 400)}`);
  say(text.includes("AUTHWRITE, AUTHREAD") || text.includes("OWNERWRITE"), "and the attributes of the index", text.slice(0, 300));
  say(link === "../docs/table/nv.md#checks-of-a-read", "and a link to its row", link);
  await page.value("document.querySelector('.why summary').click()");
  const rows = await page.text("detail");
  say(rows.includes("The checks of NV_Read in the table") && rows.includes(rowOf("nv_commands.md", "TPM2_NV_Read (14E)", /^- A5\. (.*)$/m)), "the checks of its command open", rows.slice(0, 400));
  await page.write("do Startup 0\ndo HierarchyChangeAuth OWNER pw:- 61\ndo HierarchyChangeAuth OWNER pw:62 -\n# end");
  const wrong = await page.text("detail");
  const refused = rowOf("order_of_refusals.md", "G9: entries that authorize", /^\| (.*) \| BAD_AUTH/m).replace("entry N", "Entry 1");
  const isFirst = wrong.indexOf("password given") < wrong.indexOf(`${refused}: its password`);
  say(isFirst && !wrong.includes("policy session"), "a wrong password is shown first, with its own sentence", wrong.slice(0, 400));
  await click(page, "refusal");
  const note = await page.text("note");
  await click(page, "back");
  say(note.startsWith("No refusal comes after") && (await page.text("note")).startsWith("3 steps"), "what is said of a step goes with it", `${note} ${await page.text("note")}`);
  await page.write("do Startup 0\ndo NV_DefineSpace OWNER pw:- - 01000001000b0002000200000008\ndo NV_Read OWNER 01000001 pw:- 8 0");
  await click(page, "back");
  const device = await page.text("device");
  say(device.includes("01000001") && device.includes("not written") && device.includes("changed"), "the device after it has the index, set off", device.slice(0, 300));
}

/** Checks a script from tests/sessions in which sessions encrypt parameters. */
async function encrypted(page) {
  const lines = fs.readFileSync(`${scripts}/tests/sessions/session_encryption.tpm`, "utf8").split("\n").slice(0, 60);
  await page.write(lines.join("\n"));
  const at = lines.findIndex((line) => line.startsWith("do HierarchyChangeAuth OWNER s:"));
  await page.value("document.getElementById('slider').value = 5, document.getElementById('slider').dispatchEvent(new Event('input'))");
  const text = await page.text("detail");
  say(text.includes(`line ${at + 1},`) && text.includes("decrypted 61206e65772076616c7565"), "a parameter that a session encrypted is decrypted beside its bytes", text.slice(0, 300));
  await page.write([...lines.slice(0, at), lines[at].replace(/:[0-9a-f]{2}([0-9a-f]*) /, ":00$1 ")].join("\n"));
  say((await page.text("detail")).includes("refused the command before it used the parameter"), "and of a refused command that nothing used it", (await page.text("detail")).slice(0, 900));
  await page.write(`do Startup 0\n${lines[at]}`);
  say((await page.text("detail")).includes("It is not decrypted: the script does not start it."), "or it is said why not", (await page.text("detail")).slice(0, 300));
}

/** Pastes a text at the caret. */
const paste = (page, text) => page.value(`(() => {
  const data = new DataTransfer();
  data.setData("text/plain", ${JSON.stringify(text)});
  const event = new ClipboardEvent("paste", { clipboardData: data, bubbles: true, cancelable: true });
  if (document.getElementById("text").dispatchEvent(event)) document.execCommand("insertText", false, ${JSON.stringify(text)});
})()`);

// The same command as several programs dump it. The last characters of the command also look like
// hex.
const DUMPS = {
  "hexdump -C": "00000000  80 01 00 00 00 12 00 00  01 7b 00 08 61 62 63 64  |.........{..abcd|\n00000010  65 66                                             |ef|\n00000012\n",
  xxd: "00000000: 8001 0000 0012 0000 017b 0008 6162 6364  .........{..abcd\n00000010: 6566                                     ef\n",
  od: "0000000 80 01 00 00 00 12 00 00 01 7b 00 08 61 62 63 64\n0000020 65 66\n0000022\n",
  Wireshark: "0000   80 01 00 00 00 12 00 00 01 7b 00 08 61 62 63 64   .........{..abcd\r\n0010   65 66                                             ef\r\n",
  "the page": "0000 8001000000120000017b000861626364\n0010 6566\n",
};

/** Checks that after an example has replaced a script, the user can return to that script until the
 * next edit. */
async function former(page) {
  const isOffered = () => page.value("!document.getElementById('former').hidden");
  await page.write("do Startup 0\n# mine");
  await page.value("(document.getElementById('examples').value = 'measured_boot', document.getElementById('examples').dispatchEvent(new Event('change')))");
  const first = await isOffered();
  await click(page, "tutorial");
  await click(page, "former");
  say(first && (await script(page)) === "do Startup 0\n# mine" && !(await isOffered()), "a script that an example replaced comes back", await script(page));
  await click(page, "tutorial");
  await click(page, "tutorial");
  await page.write("do Startup 0");
  say(!(await isOffered()), "until the next edit");
}

async function pasted(page) {
  await page.write("");
  await paste(page, "80 01 00 00 00 0c 00 00 01 44 00 00\n80 01 00 00 00 0a 00 00 00 00\n0x80, 0x01, 0x00, 0x00,\n0x00, 0x0c, 0x00, 0x00, 0x01, 0x7b, 0x00, 0x08\n");
  const wanted = "cmd 80010000000c000001440000\n# 80010000000a00000000\ncmd 80010000000c0000017b0008\n";
  say((await script(page)) === wanted, "pasted buffers in hex become commands and their responses", await script(page));
  const wrong = [];
  for (const [name, dump] of Object.entries(DUMPS)) {
    await page.write("");
    await paste(page, dump);
    if ((await script(page)) !== "cmd 8001000000120000017b0008616263646566\n") wrong.push(`${name}: ${await script(page)}`);
  }
  say(!wrong.length, "dumps lose their offsets and their characters", wrong.join("; "));
  await page.write("do Startup 0\ncmd ");
  await paste(page, "80 02 00");
  say((await script(page)) === "do Startup 0\ncmd 800200", "bytes that are pasted after cmd are joined", await script(page));
  await drop(page, "command.bin", Buffer.from("80010000000c000001440000", "hex"));
  say((await script(page)) === "cmd 80010000000c000001440000\n", "a dropped command in binary becomes a line", await script(page));
}

/** Checks the page that tools/explain.py made for a log. Its address is the next argument. */
async function explained() {
  const page = await browser.open(explainedPage);
  pages.push(page);
  const text = await page.text("detail");
  say((await page.value("document.title")) === "hmac_session.tpm, explained", "an explained log has its name", await page.value("document.title"));
  say(text.includes("the same command was accepted in line 29") && text.includes("HMAC wanted"), "its first refusal is told, with the slip", text.slice(0, 300));
  say((await page.text("note")).startsWith("11 commands, 3 of them refused"), "and how many there were", await page.text("note"));
  await page.value("document.querySelector('.uses summary').click()");
  await page.until("document.querySelector('.uses .as-link')");
  await page.write("do Startup 0");
  say(!(await page.text("detail")).includes("HMAC wanted"), "an edit leaves what was told behind");
}

async function sizes() {
  for (const width of [360, 768, 1920]) {
    for (const isDark of [false, true]) {
      const page = await open({ width, height: 800, isDark });
      const wide = [];
      for (const pane of width === 360 ? ["script", "detail", "device"] : ["script"]) {
        await click(page, `tab-${pane}`);
        for (let step = 0; step < 6; step += 1) await click(page, "forth");
        if (await page.value("document.documentElement.scrollWidth > innerWidth")) wide.push(pane);
        if (await page.value("[...document.querySelectorAll('article, aside, #lesson')].some((it) => it.scrollWidth > it.clientWidth + 1)")) wide.push(`${pane} within`);
      }
      say(!wide.length, `${width} pixels, ${isDark ? "dark" : "light"}: nothing is wider than the window`, wide.join(" "));
      await page.close();
    }
  }
}

const isDone = "document.getElementById('lesson-done').innerText.includes('Done.')";

async function lessons(page) {
  await page.front();
  await click(page, "tutorial");
  const wrong = [];
  for (let at = 1; at <= 10; at += 1) {
    const title = await page.text("lesson-title");
    if (!title.startsWith(`${at}. `) || (await page.text("lesson-done")) !== `Step ${at} of 10.`) wrong.push(title);
    await click(page, "lesson-show");
    await page.until(isDone, 3000).catch(() => wrong.push(`${title}: not done`));
    await click(page, "lesson-next");
  }
  say(!wrong.length, "ten lessons are gone through, and each sees its task done", wrong.join("; "));
  say(await page.value("document.getElementById('lesson').hidden"), "the tutorial ends");
}

/** Performs the last task like a reader, and then leaves and resumes a lesson. */
async function lessonsLeft() {
  const page = await open();
  const isHidden = () => page.value("document.getElementById('lesson').hidden");
  await click(page, "tutorial");
  for (let at = 1; at < 7; at += 1) await click(page, "lesson-next");
  const text = (await script(page)).replace("pw:- 8 0", "pw:- 3 0");
  await page.write(text);
  await page.until(isDone, 3000).catch(() => {});
  say((await page.text("lesson-done")) === "Step 7 of 10. Done. It reads 3 bytes.", "a step that is done says so, and what to see", await page.text("lesson-done"));
  await click(page, "tutorial");
  const wasHidden = await isHidden();
  await page.write("do Startup 0\n");
  await click(page, "tutorial");
  say(wasHidden && (await page.text("lesson-title")).startsWith("7. ") && (await script(page)) === text, "the tutorial goes on where it was left", await page.text("lesson-title"));
  for (let at = 7; at < 10; at += 1) await click(page, "lesson-next");
  await drop(page, "tpm.image", await taken(page, "image"));
  await page.until(isDone, 3000).catch(() => {});
  say(!(await isHidden()) && (await page.text("lesson-done")) === "Step 10 of 10. Done.", "an image that is dropped does the last task", await page.text("lesson-done"));
  await drop(page, "other.tpm", "do Startup 0\n");
  say(await isHidden(), "another file closes the tutorial");
}

async function links() {
  const text = "do Startup 0\ndo GetRandom 8\n";
  const one = await open();
  await one.write(text);
  await one.until("location.hash.length > 4");
  const fragment = await one.value("location.hash");
  const two = await open({}, fragment);
  say((await script(two)) === text && (await two.text("counter")) === "2 of 2", "a link holds the script and its chosen step", fragment);
  await click(two, "link");
  await two.until("document.getElementById('note').innerText.includes('The link')");
  const note = await two.text("note");
  say(note.includes("needs tpmsim.html too") && note.includes("passwords too"), "it is said who can open the link, and what it holds", note);
  const wrong = [];
  let seed = 1;
  const random = (most) => (seed = (seed * 48271) % 2147483647) % most;
  for (let count = 0; count < 60; count += 1) {
    const bytes = [...fragment].map((it) => (random(6) ? it : String.fromCharCode(33 + random(90)))).join("");
    const length = random(4) ? bytes.length : random(bytes.length);
    await two.value(`(location.hash = ${JSON.stringify(bytes.slice(0, length))})`);
    await sleep(15);
    if (two.said.length) wrong.push(bytes);
  }
  for (const it of ["#", "#s=", "#s=!!!!", "#t=abc", "#%", `#s=${"A".repeat(70000)}`]) await two.value(`(location.hash = ${JSON.stringify(it)})`);
  await sleep(200);
  say(!wrong.length && (await two.text("counter")).includes(" of "), "bent fragments do no harm", wrong.join(" "));
}

/** Drops a file on the page whose bytes an expression gives, and then runs more code in the page. */
const dropMade = (page, name, bytes, more = "") => page.value(`(async () => {
  const data = new DataTransfer();
  data.items.add(new File([${bytes}], ${JSON.stringify(name)}));
  document.dispatchEvent(new DragEvent("drop", { dataTransfer: data, bubbles: true, cancelable: true }));
  ${more}
})()`);

const noteBegins = (words) => `document.getElementById("note").textContent.startsWith(${JSON.stringify(words)})`;
const TIMES = "for (let left = 200; left > 0; left -= 1) await new Promise((go) => setTimeout(go));";

/** Checks that no link, file or pasted text makes the page wait, or lay out a text that is too long. */
async function bounds() {
  const fragment = `#s=${zlib.deflateRawSync("\n".repeat(1000000)).toString("base64url")}`;
  const page = await open({}, fragment);
  const note = await page.text("note");
  say(note.startsWith("The script of this link has 1,000,000 lines. The page takes up to 50,000 lines"), "a link with a million lines is refused", note);
  const first = new Map((await facts(page)).examples).get("disk_pin");
  say(first.length > 0 && (await script(page)) === first, "and an example is shown instead");
  await page.write("do Startup 0");
  const text = await script(page);
  await dropMade(page, "newlines", "new Uint8Array(2 ** 24).fill(10)");
  await page.until(noteBegins("newlines has more than 8 MiB of text."));
  await dropMade(page, "hex", '"80010000000c000001440000".repeat(600000)');
  await page.until(noteBegins("hex has 600,000 commands and responses."));
  say((await script(page)) === text, "files that are too long are refused, and the script stays");
  const type = 'const area = document.getElementById("text"); area.value = "power"; area.dispatchEvent(new Event("input"));';
  await dropMade(page, "hex", '"80010000000c000001440000".repeat(600000)', `await new Promise((go) => setTimeout(go)); ${type} ${TIMES}`);
  say((await page.text("note")).startsWith("1 step, 0 refused"), "who types gives up the file that is being opened", await page.text("note"));
  await dropMade(page, "hex.txt", '"80010000000c000001440000".repeat(2000)');
  await page.until("document.documentElement.dataset.played === '2000'");
  say((await script(page)) === "cmd 80010000000c000001440000\n".repeat(2000), "a capture of 2,000 commands in one line is opened");
  await pastes(page);
}

/** Checks long texts that are pasted. The browser would insert them line by line. */
async function pastes(page) {
  await page.write("# before");
  await page.key("Home");
  await page.value("(globalThis.inserted = [], globalThis.command = document.execCommand, document.execCommand = (...words) => (inserted.push(words[0]), command.apply(document, words)))");
  await paste(page, "80010000000c000001440000\n".repeat(300));
  const wanted = `${"cmd 80010000000c000001440000\n".repeat(300)}# before`;
  say((await script(page)) === wanted && (await page.value("inserted.join()")) === "insertHTML", "300 buffers are pasted at once", await page.value("inserted.join()"));
  await page.value("document.execCommand('undo')");
  say((await script(page)) === "# before", "and the browser can undo it", (await script(page)).slice(0, 100));
  await paste(page, "\n".repeat(50001));
  say((await script(page)) === "# before" && (await page.text("note")).startsWith("With the pasted text the script has 50,002 lines."), "a text of too many lines is not pasted", await page.text("note"));
  await page.value("document.execCommand = command");
  await page.write("do Startup 0");
}

const HOSTILE = "</script><script>globalThis.harm = 1</script><img src=x onerror=globalThis.harm=1>";

async function hostile(page) {
  await page.front();
  const before = await page.value("document.querySelectorAll('script, img').length");
  const hex = Buffer.from(HOSTILE).toString("hex");
  const log = `# ${HOSTILE}\ndo Startup 0\n${HOSTILE}\ndo PCR_Event 00000007 pw:${Buffer.from("<b>x</b>").toString("hex")} ${hex}\n# <b>80010000000a00000000</b>\ncmd ${hex}\n# 80010000000a0000ffff\n`;
  await drop(page, `${HOSTILE}.tpm`, log);
  for (let step = 0; step < 3; step += 1) await click(page, "forth");
  const after = await page.value("document.querySelectorAll('script, img, #texts b, #detail img').length");
  say(after === before && (await page.value("globalThis.harm")) === undefined, "nothing of a hostile log becomes markup", `${before} and ${after}`);
  say((await page.text("note")).includes("1 answered otherwise"), "a log's other answer is counted", await page.text("note"));
  say((await page.text("detail")).includes("The script has another answer than this device."), "a log's other answer is shown", (await page.text("detail")).slice(0, 300));
}

async function files(page) {
  await page.write("do Startup 0\ndo NV_DefineSpace OWNER pw:- - 01000001000b0002000200000008\ndo NV_Write OWNER 01000001 pw:- 0011223344556677 0\n");
  const got = {};
  for (const what of ["script", "log", "journal", "image", "state"]) got[what] = await taken(page, what);
  fs.mkdirSync("taken", { recursive: true });
  for (const [name, bytes] of Object.entries(got)) fs.writeFileSync(`taken/${name}`, bytes);
  say(got.script.toString() === (await script(page)), "the script is downloaded");
  say(/\n# 8001[0-9a-f]+\ndo NV_DefineSpace/.test(got.log.toString()), "the log has its answers", got.log.toString().slice(0, 200));
  const faulty = "do Startup 0\ndo GetRandom x\nhello\ndo GetRandom\n";
  await page.write(faulty);
  fs.writeFileSync("taken/faulty", faulty);
  fs.writeFileSync("taken/report", await taken(page, "report"));
  await page.write("do Startup 0\ndo NV_Read OWNER 01000001 pw:- 8 0\n");
  await drop(page, "tpm.image", got.image);
  say((await script(page)).startsWith("# image 54504d49") && (await page.text("detail")).length > 0, "a dropped image begins the script", (await script(page)).slice(0, 60));
  await click(page, "forth");
  await click(page, "forth");
  say((await page.text("detail")).includes("0011223344556677"), "the device is that of the image", (await page.text("detail")).slice(0, 300));
  await page.write("do NV_Read OWNER 01000001 pw:- 8 0\n");
  await drop(page, "tpm.state", got.state);
  await click(page, "forth");
  say((await page.text("detail")).includes("0011223344556677"), "a dropped state text goes on", (await page.text("detail")).slice(0, 300));
  await drop(page, "journal", got.journal);
  say((await bad(page)).length === 0 && (await page.text("counter")).endsWith("of 4"), "a dropped journal plays, and answers as it says", `${await bad(page)} ${await page.text("counter")}`);
  await drop(page, "bad.image", Buffer.concat([got.image.subarray(0, 80), Buffer.alloc(40)]));
  say((await bad(page))[0]?.startsWith("no device: "), "a damaged image is said to be none", (await bad(page)).join(" "));
}

/** Returns how many times slower this machine currently is than the one for which the time limits
 * were chosen. */
async function slowness(page) {
  const took = await page.value(`(() => {
    const begun = performance.now();
    let sum = 0;
    for (let at = 0; at < 30000000; at += 1) sum = (sum * 31 + at) | 0;
    return performance.now() - begun + (sum & 0);
  })()`);
  return Math.max(1, took / 60);
}

async function speed() {
  const page = await open();
  const slow = await slowness(page);
  const lines = ["do Startup 0"];
  const words = ["GetRandom 32", `PCR_Extend 0000000a pw:- sha256:${"ab".repeat(32)}`, "PCR_Read sha256:10", "NV_ReadPublic 01000001", "ReadClock"];
  while (lines.length < 10000) lines.push(`do ${words[lines.length % words.length]}`);
  const took = await page.value(`(async () => {
    const area = document.getElementById("text");
    delete document.documentElement.dataset.played;
    const begun = performance.now();
    area.value = ${JSON.stringify(lines.join("\n"))};
    area.dispatchEvent(new Event("input"));
    while (document.documentElement.dataset.played !== "10000") await new Promise((done) => setTimeout(done));
    return performance.now() - begun;
  })()`);
  say(took < 2000 * slow, "10,000 commands are there within two seconds", `${Math.round(took)} ms`);
  const edit = await edited(page, lines.slice(0, 1000));
  say(edit < 50 * slow, "an edit in the middle of 1,000 is shown within 50 ms", `${Math.round(edit)} ms`);
  const long = await edited(page, lines);
  say(long < 100 * slow, "and in the middle of 10,000 within 100 ms", `${Math.round(long)} ms`);
  if (process.env.FIGURES) console.log(`10,000 commands ${Math.round(took)} ms, an edit of 1,000 ${Math.round(edit)} ms, of 10,000 ${Math.round(long)} ms, slowness ${slow.toFixed(1)}`);
}

/** Returns the time of an edit in the middle of a script, in milliseconds: the minimum of four. */
function edited(page, lines) {
  return page.value(`(async () => {
    const area = document.getElementById("text");
    area.value = ${JSON.stringify(lines.join("\n"))};
    area.dispatchEvent(new Event("input"));
    while (document.documentElement.dataset.played !== "${lines.length}") await new Promise((done) => setTimeout(done));
    area.focus();
    const at = area.value.length >> 1;
    area.setSelectionRange(at, at);
    const times = [];
    for (const text of ["\\n", "#", " ", "x"]) {
      const begun = performance.now();
      area.setRangeText(text, area.selectionStart, area.selectionEnd, "end");
      area.dispatchEvent(new Event("input"));
      document.body.getBoundingClientRect();
      times.push(performance.now() - begun);
    }
    return Math.min(...times);
  })()`);
}

async function paint() {
  const times = [];
  let shift = 0;
  const slow = await slowness(pages[0]);
  for (let count = 0; count < 3; count += 1) {
    const page = await open();
    await sleep(300);
    times.push(await page.value("performance.getEntriesByName('first-contentful-paint')[0]?.startTime ?? 9999"));
    shift = Math.max(shift, await page.value(`new Promise((done) => {
      let sum = 0;
      new PerformanceObserver((list) => list.getEntries().forEach((it) => (sum += it.value))).observe({ type: "layout-shift", buffered: true });
      setTimeout(() => done(sum), 100);
    })`));
    await page.close();
  }
  say(Math.min(...times) < 300 * slow, "first paint within 300 ms", `${times.map(Math.round)} ms`);
  say(shift < 0.01, "nothing shifts", shift);
  if (process.env.FIGURES) console.log(`first paint ${times.map(Math.round)} ms, shift ${shift}`);
}

async function all() {
  const page = await open();
  await examples(page);
  await faults(page);
  await keyboard(await open());
  await longLine(page);
  await names(page);
  await refusal(page);
  await encrypted(page);
  await pasted(page);
  await former(page);
  await lessons(page);
  await lessonsLeft();
  await hostile(page);
  await files(page);
  await links();
  await bounds();
  await explained();
  await sizes();
  await speed();
  await paint();
  const said = pages.flatMap((it) => it.said);
  say(!said.length, "nothing on any console", said.join("; "));
  const asked = pages.flatMap((it) => it.asked).filter((it) => !/^(?:file|blob|about):/.test(it));
  say(!asked.length, "nothing was asked for but the page", asked.join(" "));
}

try {
  await all();
} finally {
  await browser.close();
}
process.exitCode = isWrong ? 1 : 0;
