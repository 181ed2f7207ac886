// Checks that the package exports what index.d.ts declares, and that the tests here use each
// export.

import assert from "node:assert/strict";
import { readFile, readdir } from "node:fs/promises";
import { test } from "node:test";

import * as exported from "tpmsim";

const declared = await readFile(new URL("../index.d.ts", import.meta.url), "utf8");
const classes = [...declared.matchAll(/^export class (\w+)[^{]*{\n(.*?)^}/gms)];

test("the classes", () => {
  assert.deepEqual(Object.keys(exported).sort(), classes.map((it) => it[1]).sort());
});

/** Returns the names of the members that the body of a class declares. */
const members = (body) =>
  [...body.matchAll(/^ {2}(?:static |readonly )*(\w+)[(:]/gm)].map((it) => it[1]).filter((it) => it !== "constructor");

test("the methods", async () => {
  const tpm = await exported.Device.create();
  const made = { Device: tpm, Words: tpm.words };
  for (const [name, it] of Object.entries(made)) {
    const [, , body] = classes.find((found) => found[1] === name);
    const there = [
      ...Object.getOwnPropertyNames(Object.getPrototypeOf(it)),
      ...Object.getOwnPropertyNames(it.constructor),
    ];
    const own = new Set(["constructor", "length", "name", "prototype"]);
    assert.deepEqual(there.filter((each) => !own.has(each)).sort(), members(body).sort());
  }
});

test("each method is called by a test", async () => {
  const folder = new URL("./", import.meta.url);
  const names = (await readdir(folder)).filter((it) => it.endsWith(".test.js") && it !== "exports.test.js");
  const tests = (await Promise.all(names.map((it) => readFile(new URL(it, folder), "utf8")))).join("\n");
  for (const [, name, body] of classes) {
    assert.match(tests, new RegExp(`\\b${name}\\b`));
    if (!["Device", "Words"].includes(name)) continue;
    for (const it of members(body)) assert.match(tests, new RegExp(`[."]${it}\\b`), it);
  }
});
