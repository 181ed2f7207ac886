// Plays scripts with the page's code: page_states.mjs PAGE FACTS MODULE LESSONS SCRIPT..
//
// It compares each response with that of the program, which is stored next to the script. It also
// compares the result of an edit with that of playing the whole script again. After some steps it
// writes a line of JSON about the device: its state text, and what the page decodes from that
// text. For each task of the lessons it reports whether an edit can complete the task.

import fs from "node:fs";
import path from "node:path";
import { pathToFileURL } from "node:url";

const [folder, facts, module, lessons, states, ...scripts] = process.argv.slice(2);
const from = (name) => import(pathToFileURL(path.join(folder, name)));
const { hexOf } = await from("bytes.js");
const { Chip } = await from("device.js");
const { byNumber, learn } = await from("facts.js");
const { commandNumber, responseCode } = await from("fields.js");
const { Run } = await from("run.js");
const { isAnswer, logOf, onDevice, readScript } = await from("script.js");
const { isDone, shownText } = await from("tutorial.js");
learn(JSON.parse(fs.readFileSync(facts, "utf8")));
const chip = await Chip.load(fs.readFileSync(module), 2);

const MOST_STATES = 6;
const linesOf = (text) => text.replace(/\n$/, "").split("\n");
const answersOf = (run) => run.answers.map((it) => hexOf(it.response)).filter(Boolean);

function played(text) {
  const run = new Run(chip);
  const script = readScript(chip, linesOf(text));
  run.take(script.steps);
  run.play(script.steps.length, 0);
  return { run, script };
}

/** Makes an edit in the middle of a script, and then restores the old text. Returns whether the
 * result equals that of playing the script again. */
function isSameAfterEdit(run, script) {
  const wanted = answersOf(run).join();
  const lines = [...script.lines];
  lines.splice(lines.length >> 1, 0, "power", "do GetRandom 8");
  run.take(readScript(chip, lines).steps);
  run.play(run.steps.length, 0);
  run.take(script.steps);
  run.play(run.steps.length, 0);
  return answersOf(run).join() === wanted;
}

const written = fs.openSync(states, "w");
let wrong = 0;
let count = 0;
for (const name of scripts) {
  const text = fs.readFileSync(name, "utf8");
  const { run, script } = played(text);
  count += run.steps.length;
  const wanted = fs.readFileSync(name.replace(/tpm$/, "out"), "latin1").split("\n").filter((it) => /^(8001|8002|00c4)/.test(it));
  const log = readScript(chip, linesOf(logOf(script, run.answers)));
  const isLog = log.steps.every((step, at) => step.answers.every((it) => isAnswer(it, run.answers[at])));
  const holds = [answersOf(run).join() === wanted.join(), isLog, isSameAfterEdit(run, script)];
  if (holds.includes(false)) {
    wrong += 1;
    console.log(`${path.basename(name)}: answers ${holds[0]}, log ${holds[1]}, edit ${holds[2]}`);
  }
  for (let at = 0; at <= run.steps.length; at += Math.max(1, Math.ceil(run.steps.length / MOST_STATES))) {
    const groups = [...run.stateAt(at).groups].map(([group, those]) => [group, [...those].map(([of, values]) => [of, [...values]])]);
    fs.writeSync(written, `${JSON.stringify([hexOf(run.textAt(at)), groups])}\n`);
  }
}
console.log(count > 5000 ? "thousands of steps" : `${count} steps`, `in scripts that are played otherwise: ${wrong}`);

function outcomesOf(run) {
  return run.answers.map((answer, at) => {
    const code = responseCode(answer.response);
    const name = byNumber.get(commandNumber(run.steps[at].buffer))?.name ?? "";
    return { name, code: code ? chip.meaning(code).name : "SUCCESS" };
  });
}

/** Edits that do not complete the task of a lesson. */
const NOT_DONE = [
  ["Startup", "$", "do GetRandom 4\n"], ["Measure", "6b65726e656c", "6b65726e6566"],
  ["Policy", "$", "do PolicyAuthValue 03000000\n"], ["Session", "sha256:7,11", "sha256:7"],
  ["NV", "$", "do NV_Read OWNER 01000001 pw:- 0 3\n"], ["NV", "$", "do NV_Read OWNER 01000001 pw:- 3 5\n"],
  ["NV", "$", "do NV_Read OWNER 01000001 pw:- 8 0\n"], ["Lockout", "do Unseal 80000001 pw:30303030\n", ""],
  ["Power", "power\ndo Startup 0", "power\ndo Startup 1"], ["Image", "$", "do NV_DefineSpace OWNER pw:- - 01000001000b0002000200000008\n"],
];
/** Edits that complete the task in another way than the lesson shows. */
const DONE = [
  ["NV", "pw:- 8 0", "pw:- 3 0"], ["NV", "do NV_Read", "do NV_Read OWNER 01000001 pw:- 3 0\ndo NV_Read"],
  ["Policy", "do PolicyPCR", "do PolicyAuthValue 03000000\ndo PolicyPCR"], ["Lockout", "# The", "wait 2000000\n# The"],
];

const tutorial = JSON.parse(fs.readFileSync(lessons, "utf8"));
for (const [those, isWanted] of [[NOT_DONE, false], [DONE, true]]) {
  for (const [title, old, put] of those) {
    const lesson = tutorial.find((it) => it.title === title);
    const text = `${lesson.script.join("\n")}\n`.replace(old === "$" ? /$/ : old, put);
    const { run } = played(text);
    if (isDone(lesson, { outcomes: () => outcomesOf(run), text: () => text }) !== isWanted) console.log(`${title}: ${put} is not taken as it should be`);
  }
}

for (const lesson of tutorial) {
  const text = `${lesson.script.join("\n")}\n`;
  const before = played(text);
  const page = (run, now) => ({ outcomes: () => outcomesOf(run), text: () => now });
  const isEarly = isDone(lesson, page(before.run, text));
  const onImage = () => onDevice(text, `# image ${hexOf(before.run.imageAt(before.run.steps.length))}`);
  const shown = shownText(text, lesson.show, { onImage });
  const isLate = isDone(lesson, page(played(shown).run, shown));
  const bad = before.script.faults.size;
  if (isEarly || !isLate || bad || !before.script.steps.some((it) => it.line === lesson.line - 1)) console.log(`${lesson.title}: done before ${isEarly}, and after ${isLate}; bad lines: ${bad}`);
}
console.log("ten tasks are done where they are shown, and not before");
process.exitCode = wrong ? 1 : 0;
