// Compares what the page draws of policies and PCRs with the device's state after each step of the scripts whose paths are
// in the file SCRIPTS:
//
//   page_pictures.mjs PAGE FACTS MODULE SCRIPTS

import fs from "node:fs";
import path from "node:path";
import { pathToFileURL } from "node:url";

const [folder, facts, module, scripts] = process.argv.slice(2);
const from = (name) => import(pathToFileURL(path.join(folder, name)));
const { hexOf } = await from("bytes.js");
const { Chip } = await from("device.js");
const { learn } = await from("facts.js");
const { assertionsOf, linksOf, movedPcrs } = await from("policies.js");
const { Run } = await from("run.js");
const { readScript } = await from("script.js");
learn(JSON.parse(fs.readFileSync(facts, "utf8")));
const chip = await Chip.load(fs.readFileSync(module), 2);
const MOST_STEPS = 400;
const MOST_SAID = 10;
const counts = { sessions: 0, assertions: 0, links: 0, moved: 0 };
const wrong = [];

/** Returns the digests of the policy sessions that are not trial sessions, and of those that are, by their handles. */
const digestsOf = (state) => new Map(state.sessions.filter((it) => it.handle >>> 24 === 3).map((it) => [it.handle, hexOf(it.digest)]));

/** Compares the assertions of each session with the steps that changed its digest since it was zeros. */
function comparePolicies(name, run, lists, at) {
  const before = digestsOf(run.stateAt(at));
  const state = run.stateAt(at + 1);
  const now = digestsOf(state);
  for (const handle of lists.keys()) if (!now.has(handle)) lists.delete(handle);
  for (const [handle, digest] of now) {
    if (/^0*$/.test(digest)) lists.set(handle, []);
    else if (before.get(handle) !== digest) lists.set(handle, [...lists.get(handle) ?? [], at]);
    const drawn = assertionsOf(run, at + 1, handle);
    const wanted = lists.get(handle) ?? [];
    counts.sessions += 1;
    counts.assertions += wanted.length;
    if (drawn.map((it) => it.at).join() !== wanted.join()) wrong.push(`${name}, step ${at + 1}: drawn ${drawn.map((it) => it.at + 1)}, wanted ${wanted.map((it) => it + 1)}`);
    const promise = drawn.filter((it) => it.pcrs.length).at(-1);
    const { counter } = state.sessions.find((it) => it.handle === handle);
    if (!promise || counter === null || !movedPcrs(run, promise, at + 1).length) continue;
    counts.moved += 1;
    if (counter === state.updateCounter) wrong.push(`${name}, step ${at + 1}: a PCR is drawn as moved`);
  }
}

/** Checks that a step that changed a PCR is the last link of that PCR. */
function comparePcrs(name, run, at) {
  const [before, after] = [run.stateAt(at), run.stateAt(at + 1)];
  if (run.steps[at].kind !== "command" || !before.isStarted || !after.isStarted) return;
  for (const [bank, values] of after.pcrs) {
    for (const [pcr, value] of values.entries()) {
      if (value === before.pcrs.get(bank)[pcr]) continue;
      counts.links += 1;
      if (linksOf(run, pcr, at + 1).at(-1) !== at) wrong.push(`${name}, step ${at + 1}: PCR ${pcr} has no link`);
    }
  }
}

for (const file of fs.readFileSync(scripts, "utf8").split("\n").filter(Boolean)) {
  const script = readScript(chip, fs.readFileSync(file, "latin1").replace(/\n$/, "").split("\n"));
  const run = new Run(chip);
  run.take(script.steps.slice(0, MOST_STEPS));
  run.play(run.steps.length, 0);
  const lists = new Map();
  for (let at = 0; at < run.steps.length; at += 1) {
    comparePolicies(path.basename(file), run, lists, at);
    comparePcrs(path.basename(file), run, at);
  }
}
for (const it of wrong.slice(0, MOST_SAID)) console.log(it);
const isMuch = counts.sessions > 500 && counts.assertions > 500 && counts.links > 50 && counts.moved > 10;
console.log(isMuch ? "hundreds of policies and links" : JSON.stringify(counts), `drawn otherwise: ${wrong.length}`);
process.exitCode = wrong.length ? 1 : 0;
