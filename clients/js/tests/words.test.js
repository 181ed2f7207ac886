// Tests commands and response codes in words.

import assert from "node:assert/strict";
import { readFile } from "node:fs/promises";
import { test } from "node:test";

import { BadLine, Words } from "tpmsim";

import { hex } from "./common.js";

const words = await Words.load();

test("the version is the package's", async () => {
  const told = await readFile(new URL("../package.json", import.meta.url), "utf8");
  assert.equal(words.version, JSON.parse(told).version);
});

test("a line, and back", () => {
  const command = words.assemble("PCR_Reset 00000010 pw:-");
  assert.equal(hex(command), "80020000001b0000013d0000001000000009400000090000010000");
  assert.equal(words.spell(command), "PCR_Reset 00000010 pw:-");
  assert.equal(words.spell(command.slice(0, 20)), null);
  assert.equal(words.spell(new Uint8Array()), null);
});

test("a bad line", () => {
  for (const [line, fault, column, wanted] of [
    ["GetRandom x", "BadField", 11, "u16"],
    ["GetRandom", "Missing", 0, "u16"],
    ["GetRandom 65536", "Range", 11, "u16"],
    ["Nothing 1", "BadName", 0, "command"],
    ["", "BadName", 0, "command"],
  ]) {
    assert.throws(() => words.assemble(line), { name: "BadLine", fault, column, wanted, line: 0 });
  }
  assert.throws(() => words.assemble(`Unknown ${"x".repeat(100_000)}`), BadLine);
  assert.throws(() => words.assemble("GetRandom x"), { message: "BadField 11: u16" });
  assert.throws(() => words.assemble("Nothing"), { message: "BadName: command" });
});

test("what response codes say", () => {
  assert.deepEqual(words.meaning(0x98e), { name: "AUTH_FAIL", place: "session", number: 1 });
  assert.deepEqual(words.meaning(0x2c4), { name: "VALUE", place: "parameter", number: 2 });
  assert.deepEqual(words.meaning(0x184), { name: "VALUE", place: "handle", number: 1 });
  assert.deepEqual(words.meaning(0x100), { name: "INITIALIZE", place: "", number: 0 });
  const response = Buffer.from("80010000000a0000098e", "hex");
  assert.deepEqual(words.meaning(response), words.meaning(0x98e));
  assert.equal(words.meaning(0xffff_ffff), null);
});

test("commands by name and number", () => {
  const number = words.commandNumber("NV_Write");
  assert.equal(number, 0x137);
  assert.equal(words.commandName(0x137), "NV_Write");
  assert.match(words.commandForm(0x137), /^NV_Write .*u16$/);
  assert.match(words.commandExample(0x137), /^NV_Write /);
  assert.ok(words.assemble(words.commandExample(0x137)).length > 10);
  assert.equal(words.commandNumber("NV_Wri"), null);
  assert.equal(words.commandNumber(""), null);
  for (const it of ["commandName", "commandForm", "commandExample"]) assert.equal(words[it](1), null);
});

test("each command's example is a line of its own", () => {
  let count = 0;
  for (let code = 0x11f; code < 0x1a0; code++) {
    const example = words.commandExample(code);
    if (example === null) continue;
    count += 1;
    const command = words.assemble(example);
    assert.equal(new DataView(command.buffer).getUint32(6), code);
    assert.equal(words.commandNumber(words.commandName(code)), code);
  }
  assert.equal(count, 47);
});
