// Tests what the page takes: page_taken.mjs PAGE FACTS CASES. In each case, which another program printed, it must
// find the same commands, responses and codes as tpmsim.taken, whether the text is opened as a file or pasted.

import fs from "node:fs";
import path from "node:path";
import { pathToFileURL } from "node:url";

const [folder, facts, cases] = process.argv.slice(2);
const from = (name) => import(pathToFileURL(path.join(folder, name)));
const { decoded } = await from("bytes.js");
const { learn } = await from("facts.js");
const { scriptOfFile } = await from("files.js");
const { pastedText } = await from("pasted.js");
const { atOnce } = await from("turns.js");
learn(JSON.parse(fs.readFileSync(facts, "utf8")));

const filled = (text) => text.split("\n").filter(Boolean);
const isText = (bytes) => Buffer.from(decoded(bytes)).equals(Buffer.from(bytes));
let count = 0;

function say(name, how, own, wanted) {
  if (JSON.stringify(own) === JSON.stringify(wanted)) return;
  console.log(`NO: ${name}, ${how}: ${JSON.stringify(own)}, wanted ${JSON.stringify(wanted)}`);
  process.exitCode = 1;
}

for (const line of filled(fs.readFileSync(cases, "utf8"))) {
  const [name, data, isForeign, lines, codes, remarks] = JSON.parse(line);
  const bytes = new Uint8Array(Buffer.from(data, "base64"));
  const text = isText(bytes) ? decoded(bytes).replaceAll("\r\n", "\n") : "";
  const opened = atOnce(scriptOfFile("It", bytes, ""));
  const found = { opened: opened.text, ...(text ? { pasted: atOnce(pastedText("", text)).text } : {}) };
  for (const [how, own] of Object.entries(found)) {
    if (codes.length) say(name, how, codes.every((it) => it.every((words) => own.includes(words))), true);
    else say(name, how, filled(own), isForeign ? lines : filled(text));
  }
  const said = remarks.map((it) => `${it[0].toUpperCase()}${it.slice(1)}.`).join(" ");
  if (isForeign && said) say(name, "said", opened.note, `It is open. ${said}`);
  count += 1;
}
console.log(`${count} texts are taken as by tpmsim.taken`);
