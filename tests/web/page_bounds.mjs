// Tests what the page opens, and how its work grows:
//
//   node page_bounds.mjs kinds PAGE FACTS MODULE
//       prints what the page says of 16 MiB of various bytes, and tests the bounds of scripts
//   node --no-opt --no-flush-bytecode page_bounds.mjs steps PAGE FACTS MODULE
//       tests that four times as many bytes take four times as many steps
//
// The steps of some work are the number of blocks of the page's code that V8 executes for it, and the
// number of characters that strings and regular expressions take for it. V8 counts blocks reliably only
// without its optimizing compiler.

import fs from "node:fs";
import inspector from "node:inspector";
import path from "node:path";
import { pathToFileURL } from "node:url";

const [task, folder, facts, module] = process.argv.slice(2);
const session = new inspector.Session();
session.connect();
/** Sends a request to V8, which answers before `post` returns. */
function ask(method, parameters = {}) {
  let answer;
  session.post(method, parameters, (fault, found) => {
    if (fault) throw new Error(fault.message);
    answer = found;
  });
  return answer;
}

// V8 counts the blocks of code that it compiles from now on.
if (task === "steps") {
  ask("Profiler.enable");
  ask("Profiler.startPreciseCoverage", { callCount: true, detailed: true });
}

const from = (name) => import(pathToFileURL(path.join(folder, name)));
const { MOST_LINES, MOST_TEXT, tooMuch } = await from("bounds.js");
const { encoded } = await from("bytes.js");
const { tokensOf } = await from("completion.js");
const { Chip } = await from("device.js");
const { learn } = await from("facts.js");
const { scriptOfFile } = await from("files.js");
const { pastedText } = await from("pasted.js");
const { Run } = await from("run.js");
const { isAnswer, readingOf, readScript } = await from("script.js");
const { atOnce } = await from("turns.js");
learn(JSON.parse(fs.readFileSync(facts, "utf8")));
const chip = await Chip.load(fs.readFileSync(module), 2);

function say(holds, what, more = "") {
  console.log(`${holds ? "yes" : "NO"}: ${what}${holds ? "" : ` (${more})`}`);
  if (!holds) process.exitCode = 1;
}

// Counting.

/** Counts the characters that the regular expressions match or look through, and those of new strings. */
function countCharacters() {
  const { exec } = RegExp.prototype;
  const { slice } = String.prototype;
  let count = 0;
  RegExp.prototype.exec = function counted(text) {
    const begin = this.global || this.sticky ? this.lastIndex : 0;
    const found = exec.call(this, text);
    count += (found ? found.index + found[0].length : text.length) - begin;
    return found;
  };
  String.prototype.slice = function counted(...ends) {
    const found = slice.apply(this, ends);
    count += found.length;
    return found;
  };
  return () => {
    RegExp.prototype.exec = exec;
    String.prototype.slice = slice;
    return count;
  };
}

/** Returns the number of steps of a call. */
function stepsOf(call) {
  ask("Profiler.takePreciseCoverage");
  const characters = countCharacters();
  call();
  const count = characters();
  const { result } = ask("Profiler.takePreciseCoverage");
  const own = result.filter(({ url }) => url.includes("/web/page/"));
  const blocks = own.flatMap(({ functions }) => functions.flatMap(({ ranges }) => ranges.map((it) => it.count)));
  return blocks.reduce((sum, it) => sum + it, count);
}

/** Returns the number of parts of some work. */
function partsOf(work) {
  let count = 0;
  while (!work.next().done) count += 1;
  return count;
}

// What a user may drop on the page.

const MEBIBYTE = 1 << 20;
const COMMAND = "80010000000c000001440000";
const LARGE = `800100001000${"0000017b"}${"00".repeat(4086)}`;

/** Returns bytes that repeat a unit as often as it fits. */
function repeated(unit, size) {
  const bytes = Buffer.from(unit, "latin1");
  return Buffer.alloc(size - (size % bytes.length), bytes);
}

const binary = (hex) => Buffer.from(hex, "hex").toString("latin1");
/** Returns the same bytes in each run, none of which is more frequent than others. */
function mixed(size) {
  let seed = 1;
  return Buffer.from(Uint8Array.from({ length: size }, () => (seed = (seed * 48271) % 2147483647) >> 8));
}

/** The contents of files of a size, by what they are. */
const KINDS = {
  zeros: (size) => Buffer.alloc(size),
  "zeros and a letter": (size) => Buffer.concat([Buffer.alloc(size - 1), Buffer.from("a")]),
  "random bytes": (size) => mixed(size),
  newlines: (size) => repeated("\n", size),
  "carriage returns": (size) => repeated("\r", size),
  blanks: (size) => repeated(" ", size),
  "markup in lines": (size) => repeated("<p>a <b>b</b></p>\n", size),
  "markup in one line": (size) => repeated("<p>a <b>b</b></p>", size),
  "the digit 8": (size) => repeated("8", size),
  "hex in one line": (size) => repeated(COMMAND, size),
  "hex with blanks": (size) => repeated(COMMAND.replace(/../g, "$& "), size),
  "hex in lines": (size) => repeated(`${COMMAND}\n`, size),
  "hex of large commands": (size) => repeated(LARGE, size),
  "commands in binary": (size) => repeated(binary(COMMAND), size),
  "large commands in binary": (size) => repeated(binary(LARGE), size),
  "commands in binary, the last one cut": (size) => repeated(binary(COMMAND), size).subarray(0, -1),
  "bytes 80": (size) => repeated("\x80", size),
  "rows of a dump": (size) => repeated("0000 80\n", size),
  "a dump of stars": (size) => Buffer.concat([Buffer.from("0000 80\n"), repeated("*\n", size - 8)]),
  "rows with separators": (size) => repeated(`0000${" ".repeat(500)}a\xe2\x80\xa8b\n`, size),
};

const opened = (bytes) => scriptOfFile("It", new Uint8Array(bytes.buffer, bytes.byteOffset, bytes.length), "");

const SHOWN = ["zeros", "zeros and a letter", "random bytes", "newlines", "markup in one line", "hex in one line", "commands in binary", "commands in binary, the last one cut", "bytes 80"];

function kinds() {
  console.log("16 MiB of");
  for (const name of SHOWN) {
    const { note, isBad } = atOnce(opened(KINDS[name](16 * MEBIBYTE)));
    console.log(`${name}: ${isBad ? note : "opened"}`);
  }
}

/** Returns how many times the number of steps grows if the text grows fourfold. */
function growth(work) {
  const [small, large] = [work(SMALL), work(4 * SMALL)];
  const steps = stepsOf(() => atOnce(small()));
  return stepsOf(() => atOnce(large())) / steps;
}

const SMALL = MEBIBYTE / 16;
const isFourfold = (times) => times > 3 && times < 4.2;
/** The files of which the page looks only at the first bytes. */
const BY_HEADER = "bytes 80";

const openedLater = (make) => (size) => {
  const bytes = make(size);
  return () => opened(bytes);
};
const pasted = (unit) => (size) => {
  const text = repeated(unit, size).toString("latin1");
  return () => pastedText("", text);
};
const lines = (unit) => (size) => {
  const text = repeated(unit, size).toString("latin1").split("\n");
  return () => readingOf(chip, text);
};
const PASTED = [COMMAND, `${COMMAND}\n`, "cmd 80 01\n", `cmd ${"80 ".repeat(400)}\n`, "# 8001\n"];
const READ = ["\n", "do SelfTest 1\n", "wait 1\n", `# ${COMMAND}\n`, "<p>\n", `# 8001${"a0".repeat(30)}\n`];

function steps() {
  const files = Object.entries(KINDS).filter(([name]) => name !== BY_HEADER).map(([name, make]) => [name, growth(openedLater(make))]);
  const wrong = files.filter(([, times]) => !isFourfold(times));
  say(!wrong.length, "a file of four times as many bytes takes four times as many steps", wrong.join("; "));
  const ofPasted = PASTED.map((unit) => growth(pasted(unit)));
  say(ofPasted.every(isFourfold), "so does a pasted text", ofPasted);
  const ofRead = READ.map((unit) => growth(lines(unit)));
  say(ofRead.every(isFourfold), "and a script that is read", ofRead);
}

const MANY = ["zeros", "random bytes", "newlines", "hex in one line", "commands in binary", "rows of a dump"];

function parts() {
  const few = MANY.filter((name) => partsOf(opened(KINDS[name](MEBIBYTE))) < 16);
  say(!few.length, "a file of 1 MiB is read in at least 16 parts", few);
  say(partsOf(readingOf(chip, Array(10000).fill("#"))) >= 16, "and a script of 10,000 lines too");
}

// The bounds of a script.

function bounds() {
  const ofLines = [MOST_LINES, MOST_LINES + 1].map((count) => tooMuch("It has", "\n".repeat(count), "Shorten it."));
  say(ofLines[0] === "" && ofLines[1].startsWith("It has 50,001 lines. The page takes up to 50,000 lines"), "50,000 lines are taken, and not one more", ofLines);
  const ofText = [MOST_TEXT, MOST_TEXT + 1].map((count) => tooMuch("It has", "a".repeat(count), "Shorten it."));
  say(ofText[0] === "" && ofText[1].startsWith("It has more than 8 MiB of text. "), "8 MiB are taken, and not one character more", ofText);

  const LONG = "a0".repeat(MOST_TEXT / 2 - 10);
  const read = ["# 8001", "# image ", "# ", "cmd ", "do GetRandom ", ""].map((front) => readScript(chip, ["do Startup 0", `${front}${LONG}`]));
  say(read.map(({ steps, faults }) => `${steps.length}${faults.size}`).join() === "10,20,10,11,11,11", "a line of 8 MiB is read", read.map(({ steps, faults }) => [steps.length, faults.size]));
  say(tokensOf("GetRandom ".repeat(MOST_TEXT / 10)).tokens.length === 1, "and is not divided into words");
}

// Playing.

function playing() {
  const COUNT = 5000;
  const script = readScript(chip, Array(COUNT).fill("do Startup 0"));
  const run = new Run(chip);
  run.take(script.steps);
  const isReached = run.reaches(COUNT, 0);
  const first = run.compared;
  let calls = 1;
  while (!run.reaches(COUNT, 0)) calls += 1;
  say(!isReached && first < 200 && calls > 25, "the last of 5,000 commands is played in slices", `${first} in the first of ${calls}`);
  run.take(script.steps);
  say(run.reaches(10, 0) && run.isPlayed, "and is not played again");
}

function checksums() {
  const response = (text) => ({ response: encoded(text), trace: "" });
  const SUMS = [["", "cbf29ce484222325"], ["a", "af63dc4c8601ec8c"], ["foobar", "85944171f73967e8"]];
  say(SUMS.every(([text, sum]) => isAnswer(`sum ${sum}`, response(text))), "checksums are those published for FNV-1a");
  say(!isAnswer("sum 85944171f73967e9", response("foobar")), "and no others");
}

function recordedAnswers() {
  const recorded = (answers) => readScript(chip, ["do Startup 0", ...answers.flatMap((it) => ["do GetRandom 2", `# ${it}`])]);
  const RANDOM = "80010000000e0000000000020000";
  const log = new Run(chip);
  const partedOf = (answers) => {
    log.take(recorded(answers).steps);
    log.play(answers.length, 0);
    return log.parted.join();
  };
  const OTHER = "80010000000a00000101";
  const logs = [[RANDOM, RANDOM], [RANDOM, OTHER], [OTHER, RANDOM], [OTHER, OTHER, OTHER], [OTHER], []].map(partedOf);
  say(logs.join(" ") === " 2 1 1,2,3 1 ", "other recorded responses are found after each edit", JSON.stringify(logs));
}

if (task === "steps") {
  steps();
} else {
  kinds();
  parts();
  bounds();
  playing();
  checksums();
  recordedAnswers();
}
