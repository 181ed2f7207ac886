// Controls a headless Chromium through the pipe of its DevTools protocol. It needs no package.

import { spawn } from "node:child_process";
import fs from "node:fs";
import os from "node:os";
import path from "node:path";

const FLAGS = [
  "--headless=new", "--no-sandbox", "--disable-gpu", "--remote-debugging-pipe", "--no-first-run",
  "--disable-background-networking", "--disable-component-update", "--disable-extensions",
];
const CODES = { Enter: 13, Escape: 27, Tab: 9, ArrowUp: 38, ArrowDown: 40, ArrowLeft: 37, ArrowRight: 39, Home: 36, End: 35, F6: 117, PageDown: 34 };
export const ALT = 1, CTRL = 2, SHIFT = 8;

export const sleep = (milliseconds) => new Promise((done) => setTimeout(done, milliseconds));

/** A running browser with its own profile folder. */
export class Browser {
  static async start(program = process.env.CHROMIUM || "chromium") {
    const folder = fs.mkdtempSync(path.join(os.tmpdir(), "page-"));
    const child = spawn(program, [...FLAGS, `--user-data-dir=${folder}`, "about:blank"], { stdio: ["ignore", "ignore", "ignore", "pipe", "pipe"] });
    const browser = new Browser(child, folder);
    await browser.send("Browser.getVersion");
    return browser;
  }

  constructor(child, folder) {
    this.child = child;
    this.folder = folder;
    this.next = 1;
    this.waiting = new Map();
    this.pages = new Map();
    let rest = "";
    child.stdio[4].setEncoding("utf8");
    child.stdio[4].on("data", (text) => {
      const parts = (rest + text).split("\0");
      rest = parts.pop();
      parts.forEach((it) => this.take(JSON.parse(it)));
    });
  }

  take(message) {
    if (!message.id) return this.pages.get(message.sessionId)?.heard(message);
    const { done, fail } = this.waiting.get(message.id);
    this.waiting.delete(message.id);
    return message.error ? fail(new Error(JSON.stringify(message.error))) : done(message.result);
  }

  send(method, params = {}, sessionId = undefined) {
    const id = this.next;
    this.next += 1;
    this.child.stdio[3].write(`${JSON.stringify({ id, method, params, sessionId })}\0`);
    return new Promise((done, fail) => this.waiting.set(id, { done, fail }));
  }

  async open(address, { width = 1600, height = 1000, isDark = false } = {}) {
    const { targetId } = await this.send("Target.createTarget", { url: "about:blank" });
    const { sessionId } = await this.send("Target.attachToTarget", { targetId, flatten: true });
    const page = new BrowserPage(this, sessionId, targetId);
    this.pages.set(sessionId, page);
    for (const domain of ["Page", "Runtime", "Log", "Network"]) await page.send(`${domain}.enable`);
    await page.send("Emulation.setDeviceMetricsOverride", { width, height, deviceScaleFactor: 1, mobile: width < 600 });
    await page.send("Emulation.setEmulatedMedia", { features: [{ name: "prefers-color-scheme", value: isDark ? "dark" : "light" }] });
    await page.send("Page.navigate", { url: address });
    await page.until("document.documentElement?.dataset.ready");
    return page;
  }

  async close() {
    await Promise.race([this.send("Browser.close").catch(() => {}), sleep(2000)]);
    this.child.kill();
    await sleep(100);
    await removed(this.folder);
  }
}

/** A page, with all its console output, and each address that it requested. */
class BrowserPage {
  constructor(browser, session, target) {
    Object.assign(this, { browser, session, target, said: [], asked: [] });
  }

  heard({ method, params }) {
    if (method === "Runtime.exceptionThrown") this.said.push(params.exceptionDetails.exception?.description ?? params.exceptionDetails.text);
    if (method === "Runtime.consoleAPICalled") this.said.push(params.args.map((it) => it.value ?? it.description).join(" "));
    if (method === "Log.entryAdded") this.said.push(params.entry.text);
    if (method === "Network.requestWillBeSent") this.asked.push(params.request.url);
  }

  send(method, params) {
    return this.browser.send(method, params, this.session);
  }

  /** Returns the value of an expression in the page. */
  async value(expression) {
    const { result, exceptionDetails } = await this.send("Runtime.evaluate", { expression, awaitPromise: true, returnByValue: true });
    if (exceptionDetails) throw new Error(exceptionDetails.exception?.description ?? exceptionDetails.text);
    return result.value;
  }

  async until(expression, milliseconds = 60000) {
    const end = Date.now() + milliseconds;
    while (!(await this.value(expression))) {
      if (Date.now() > end) throw new Error(`never came: ${expression}\n${this.said.join("\n")}`);
      await sleep(20);
    }
  }

  /** Brings the page to the front. Only the front page receives keys. */
  async front() {
    await this.send("Page.bringToFront");
    await this.until("document.hasFocus()");
  }

  text(id) {
    return this.value(`document.getElementById(${JSON.stringify(id)}).innerText`);
  }

  type(text) {
    return this.send("Input.insertText", { text });
  }

  async key(key, modifiers = 0) {
    const isLetter = key.length === 1;
    const it = { key, code: isLetter ? (key === " " ? "Space" : `Key${key.toUpperCase()}`) : key, modifiers, windowsVirtualKeyCode: CODES[key] ?? key.toUpperCase().charCodeAt(0) };
    const typed = key === "Enter" ? "\r" : isLetter ? key : "";
    const text = typed && !(modifiers & (ALT | CTRL)) ? { text: typed } : {};
    await this.send("Input.dispatchKeyEvent", { type: text.text ? "keyDown" : "rawKeyDown", ...it, ...text });
    await this.send("Input.dispatchKeyEvent", { type: "keyUp", ...it });
  }

  /** Replaces the script in the page with another one, as if a user typed it. */
  async write(text) {
    await this.front();
    await this.value("document.getElementById('tab-script').click()");
    await this.value("(document.getElementById('text').focus(), document.getElementById('text').select())");
    await this.value("delete document.documentElement.dataset.played");
    await this.type(text);
    await this.until("document.documentElement.dataset.played !== undefined");
  }

  async picture(file) {
    const { data } = await this.send("Page.captureScreenshot", { format: "png" });
    fs.writeFileSync(file, Buffer.from(data, "base64"));
  }

  close() {
    return this.browser.send("Target.closeTarget", { targetId: this.target });
  }
}

/** Removes a folder to which the browser may still write for a moment. */
async function removed(folder) {
  for (let left = 20; left > 0; left -= 1) {
    try {
      return fs.rmSync(folder, { recursive: true, force: true });
    } catch {
      await sleep(100);
    }
  }
  return undefined;
}
