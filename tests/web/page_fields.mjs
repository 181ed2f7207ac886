// Compares the fields that the page shows for commands and responses with those in the file CASES:
//
//   page_fields.mjs PAGE FACTS CASES

import fs from "node:fs";
import path from "node:path";
import { pathToFileURL } from "node:url";

const [folder, facts, cases] = process.argv.slice(2);
const from = (name) => import(pathToFileURL(path.join(folder, name)));
const { bytesOf } = await from("bytes.js");
const { learn } = await from("facts.js");
const { commandNumber, fieldsOfCommand, fieldsOfResponse } = await from("fields.js");
learn(JSON.parse(fs.readFileSync(facts, "utf8")));

const values = (fields) =>
  fields.map((it) => [it.name, it.at, it.size, it.front, it.meaning, it.sort, it.depth, it.isGroup]);

/** Returns whether each byte belongs to exactly one field. */
function isCovered(bytes, fields) {
  const counts = new Array(bytes.length).fill(0);
  for (const it of fields) {
    const size = it.isGroup ? it.front : it.size;
    for (let at = it.at; at < it.at + size; at += 1) counts[at] += 1;
  }
  return counts.every((it) => it === 1);
}

let count = 0;
let wrong = 0;
for (const line of fs.readFileSync(cases, "utf8").split("\n").filter(Boolean)) {
  const [buffer, response, words, asked, answered] = JSON.parse(line);
  const command = fieldsOfCommand(bytesOf(buffer));
  const answer = fieldsOfResponse(commandNumber(bytesOf(buffer)), bytesOf(response), () => words);
  count += 1;
  const isSame = JSON.stringify([values(command), values(answer)]) === JSON.stringify([asked, answered]);
  if (isSame && isCovered(bytesOf(buffer), command) && isCovered(bytesOf(response), answer)) continue;
  wrong += 1;
  if (wrong <= 5) console.log(`other fields: ${buffer} ${response}\n${JSON.stringify(values(command))}\n${JSON.stringify(asked)}\n${JSON.stringify(values(answer))}\n${JSON.stringify(answered)}`);
}
console.log(count > 5000 ? "thousands of commands and responses" : `${count} commands`, `with other fields: ${wrong}`);
process.exitCode = wrong ? 1 : 0;
