// Checks that the scripts of the repository get the same responses and traces as from the program.

import assert from "node:assert/strict";
import { existsSync, readFileSync, readdirSync } from "node:fs";
import { join } from "node:path";
import { test } from "node:test";

import { BadLine, Device } from "tpmsim";

import { hex, ZERO_TO_FF } from "./common.js";

// The folder of the scripts, which tests/common/made.py of the repository makes.
const made = process.env.TPMSIM_MADE;

/** @returns {Promise<Device>} a new device, as a script expects it */
const fresh = () => Device.create({ manufactured: ZERO_TO_FF });

function* scripts(folder) {
  for (const entry of readdirSync(folder, { withFileTypes: true })) {
    const path = join(folder, entry.name);
    // The scripts in tests/complete are for a device of the complete profile.
    if (entry.name === "complete") continue;
    if (entry.isDirectory()) yield* scripts(path);
    else if (path.endsWith(".tpm")) yield path;
  }
}

/** Plays a script. Returns what the program would print without and with traces, and the fault. */
async function played(path) {
  const tpm = await fresh();
  const [answers, traced] = [[], []];
  let fault = "";
  try {
    for (const event of tpm.play(readFileSync(path))) {
      traced.push(event.trace);
      if (event.answer === null) continue;
      answers.push(hex(event.answer.response));
      traced.push(hex(event.answer.response));
    }
  } catch (it) {
    if (!(it instanceof BadLine)) throw it;
    fault = `tpmsim: script line ${it.line}`;
  } finally {
    tpm.dispose();
  }
  return { answers, traced, fault };
}

const text = (lines) => lines.map((it) => `${it}\n`).join("");
const kept = (path) => (existsSync(path) ? readFileSync(path, "latin1") : "");

test("the scripts of the repository", { skip: !made && "TPMSIM_MADE is not set" }, async () => {
  let count = 0;
  for (const path of scripts(made)) {
    const base = path.replace(/tpm$/, "");
    const { answers, traced, fault } = await played(path);
    assert.equal(text(answers), kept(`${base}out`), path);
    assert.equal(fault && `${fault}\n`, kept(`${base}err`), path);
    assert.equal(text(traced), kept(`${base}trace`), path);
    count += 1;
  }
  assert.ok(count > 100);
});

test("events by their lines", async () => {
  const tpm = await fresh();
  const script = "# a comment\ndo Startup 0\n\nloc 3\nwait 5\nwait 6\npower\nentropy 0102\ndo Startup 0\ncmd";
  assert.deepEqual(
    [...tpm.play(script)].map((it) => [it.line, it.trace]),
    [
      [2, "Startup L0 +0 ok 00000000"],
      [7, "power"],
      [9, "Startup L3 +11 ok 00000000"],
      [10, "? L3 +0 G1 00000142"],
    ],
  );
});

test("random bytes are repeated", async () => {
  const tpm = await fresh();
  const events = [...tpm.play("do Startup 0\ndo GetRandom 2\nentropy 0a0b0c\ndo GetRandom 5\n")];
  assert.deepEqual(
    events.slice(1).map((it) => hex(it.answer.response).slice(24)),
    ["0000", "0a0b0c0a0b"],
  );
});

test("a bad line ends a script after the lines before it", async () => {
  const tpm = await fresh();
  const seen = [];
  assert.throws(
    () => {
      for (const event of tpm.play("do Startup 0\ndo GetRandom x\ndo GetRandom 4\n")) seen.push(event.line);
    },
    { name: "BadLine", line: 2, fault: "BadField", column: 11, message: "line 2: BadField 11: u16" },
  );
  assert.deepEqual(seen, [1]);
});

test("a script is played as its events are asked for", async () => {
  const tpm = await fresh();
  const events = tpm.play("do Startup 0\ndo GetRandom 4\n");
  assert.equal(events.next().value.line, 1);
  assert.equal(tpm.do("GetRandom 1").row.check, "ok");
  assert.equal(events.next().value.line, 2);
  assert.equal(events.next().done, true);
});
