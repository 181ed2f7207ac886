// Tests how a device executes commands, and how it is kept, saved and restored.

import assert from "node:assert/strict";
import { createHash } from "node:crypto";
import { test } from "node:test";

import { BadImage, BadState, Device, DeviceEnded } from "tpmsim";

import { hex, ZERO_TO_FF } from "./common.js";

const SUCCESS = "80010000000a00000000";
const INITIALIZE = "80010000000a00000100";
const AREA = "NV_DefineSpace OWNER pw:- - 01000001000b0002000200000008";
const WRITE = "NV_Write OWNER 01000001 pw:- 0011223344556677 0";
const READ = "NV_Read OWNER 01000001 pw:- 8 0";

async function started(making) {
  const tpm = await Device.create(making);
  assert.equal(hex(tpm.do("Startup 0").response), SUCCESS);
  return tpm;
}

/** Executes TPM2_GetRandom, and returns its eight random bytes in hex. */
const drawn = (tpm, event) => hex(tpm.do("GetRandom 8", event).response).slice(-16);

test("a command in words and in bytes", async () => {
  const tpm = await started();
  const { response, row, drawn: count, trace } = tpm.execute(tpm.words.assemble("GetRandom 4"));
  assert.equal(hex(response).slice(0, -8), "8001000000100000000" + "00004");
  assert.deepEqual(row, { code: 0x17b, check: "ok" });
  assert.equal(count, 4);
  assert.equal(trace, "GetRandom L0 +0 ok 00000000");
});

test("bytes that are no command", async () => {
  const tpm = await started();
  for (const size of [0, 1, 9, 4096, 4097, 5000, 200_000]) {
    const { response, row } = tpm.execute(new Uint8Array(size));
    assert.equal(response.length, 10);
    assert.equal(row.code, 0);
    assert.match(row.check, /^G[1-4]$/);
  }
  assert.equal(drawn(tpm).length, 16);
});

test("locality and time", async () => {
  const tpm = await started();
  const told = tpm.do("PCR_Reset 00000010 pw:-", { locality: 4, elapsed: 4_294_967_295 });
  assert.equal(told.trace, "PCR_Reset L4 +4294967295 ok 00000000");
  const refused = tpm.do("PCR_Reset 00000000 pw:-", { locality: 3, elapsed: 7 });
  assert.equal(refused.trace, "PCR_Reset L3 +7 A1 00000907");
  assert.equal(refused.row.check, "A1");
});

test("random bytes of the caller, and of the system", async () => {
  const tpm = await started();
  const random = ZERO_TO_FF;
  assert.equal(drawn(tpm, { random }), "0001020304050607");
  assert.equal(drawn(tpm, { random }), "0001020304050607");
  const all = new Set(Array.from({ length: 100 }, () => drawn(tpm)));
  assert.equal(all.size, 100);
});

test("an argument is not changed, and an answer is the caller's own", async () => {
  const tpm = await started();
  const command = tpm.words.assemble("GetRandom 8");
  const kept = command.slice();
  const random = ZERO_TO_FF.slice();
  const { response } = tpm.execute(command, { random });
  const first = hex(response);
  tpm.do("GetRandom 8");
  assert.equal(hex(response), first);
  assert.deepEqual(command, kept);
  assert.deepEqual(random, ZERO_TO_FF);
});

test("a part of a larger buffer", async () => {
  const tpm = await started();
  const command = tpm.words.assemble("GetRandom 8");
  const larger = Buffer.concat([Buffer.from("before"), command, Buffer.from("after")]);
  const part = larger.subarray(6, 6 + command.length);
  assert.equal(tpm.execute(part).row.check, "ok");
});

test("the completing layer", async () => {
  const tpm = await started();
  const stir = Uint8Array.from(Buffer.from("80010000000e00000146000201020000", "hex").subarray(0, 14));
  assert.equal(hex(tpm.execute(stir).response), "80010000000a00000143");
  const completed = tpm.execute(stir, { complete: true });
  assert.equal(hex(completed.response), SUCCESS);
  assert.equal(completed.trace, "");
  assert.equal(completed.row.check, "G4");
});

test("a power cycle", async () => {
  const tpm = await started();
  tpm.powerCycle();
  assert.equal(hex(tpm.do("GetRandom 4").response), INITIALIZE);
  assert.equal(hex(tpm.do("Startup 0").response), SUCCESS);
});

test("an image", async () => {
  const tpm = await started();
  tpm.do(AREA);
  tpm.do(WRITE);
  const image = tpm.save();
  assert.equal(hex(image.subarray(0, 4)), "54504d49");
  const other = await Device.create({ image });
  assert.equal(hex(other.do("GetRandom 4").response), INITIALIZE);
  other.do("Startup 0");
  assert.match(hex(other.do(READ).response), /0011223344556677/);
  tpm.do("NV_UndefineSpace OWNER 01000001 pw:-");
  tpm.open(image);
  tpm.do("Startup 0");
  assert.match(hex(tpm.do(READ).response), /0011223344556677/);
});

test("what is kept changes with all but the clock", async () => {
  const tpm = await started();
  const before = tpm.kept();
  tpm.do("ReadClock", { elapsed: 5000 });
  assert.deepEqual(tpm.kept(), before);
  tpm.do(AREA);
  assert.notDeepEqual(tpm.kept(), before);
});

test("bytes that are no image", async () => {
  const tpm = await started();
  const image = tpm.save();
  const turned = image.slice();
  turned[100] ^= 1;
  const before = tpm.snapshot();
  for (const [bytes, fault] of [
    [new Uint8Array(), "Short"],
    [image.slice(0, 41), "Short"],
    [image.slice(0, -1), "Length"],
    [turned, "Digest"],
    [tpm.snapshot(), "Magic"],
  ]) {
    assert.throws(() => tpm.open(bytes), { name: "BadImage", fault });
    await assert.rejects(Device.create({ image: bytes }), (it) => it instanceof BadImage);
  }
  assert.deepEqual(tpm.snapshot(), before);
});

test("a snapshot", async () => {
  const tpm = await started();
  tpm.do(AREA);
  const before = tpm.snapshot();
  tpm.do(WRITE);
  const after = tpm.snapshot();
  tpm.restore(before);
  assert.match(hex(tpm.do(READ).response), /0000014a$/);
  tpm.restore(after);
  assert.match(hex(tpm.do(READ).response), /0011223344556677/);
  const other = await Device.create({ state: after });
  assert.match(hex(other.do(READ).response), /0011223344556677/);
});

test("a snapshot of each step goes back to that step", async () => {
  const tpm = await started();
  const extend = `PCR_Extend 00000010 pw:- sha256:${"5a".repeat(32)}`;
  const steps = [];
  for (let step = 0; step < 20; step++) {
    steps.push([tpm.snapshot(), hex(tpm.do("PCR_Read sha256:16").response)]);
    tpm.do(extend);
  }
  for (const [snapshot, read] of steps.reverse()) {
    tpm.restore(snapshot);
    assert.equal(hex(tpm.do("PCR_Read sha256:16").response), read);
  }
});

test("bytes that are no state text", async () => {
  const tpm = await started();
  const state = tpm.snapshot();
  const turned = state.slice();
  turned[100] ^= 1;
  const earlier = state.slice();
  earlier[5] = 1;
  earlier.set(createHash("sha256").update(earlier.slice(0, -32)).digest(), earlier.length - 32);
  for (const [bytes, fault] of [
    [new Uint8Array(), "Short"],
    [state.slice(0, -1), "Length"],
    [turned, "Digest"],
    [tpm.save(), "Magic"],
    [earlier, "Earlier"],
  ]) {
    assert.throws(() => tpm.restore(bytes), { name: "BadState", fault });
    await assert.rejects(Device.create({ state: bytes }), (it) => it instanceof BadState);
  }
  assert.deepEqual(tpm.snapshot(), state);
});

test("devices beside each other share nothing", async () => {
  const devices = await Promise.all(Array.from({ length: 50 }, () => started()));
  devices.forEach((tpm, at) => {
    for (let count = 0; count < at % 5; count++) {
      tpm.do(`PCR_Extend 00000010 pw:- sha256:${"5a".repeat(32)}`);
    }
  });
  const read = devices.map((tpm) => hex(tpm.do("PCR_Read sha256:16").response).slice(-64));
  assert.equal(new Set(read).size, 5);
  read.forEach((value, at) => assert.equal(value, read[at % 5]));
  const images = new Set(devices.map((tpm) => hex(tpm.save())));
  assert.equal(images.size, 50);
});

test("a device that was disposed of", async () => {
  const tpm = await started();
  const image = tpm.save();
  const { words } = tpm;
  tpm.dispose();
  tpm.dispose();
  for (const call of [
    () => tpm.execute(new Uint8Array(10)),
    () => tpm.do("GetRandom 4"),
    () => tpm.powerCycle(),
    () => tpm.save(),
    () => tpm.kept(),
    () => tpm.open(image),
    () => tpm.snapshot(),
    () => tpm.restore(image),
    () => [...tpm.play("do GetRandom 4\n")],
  ]) {
    assert.throws(call, (it) => it instanceof DeviceEnded && it.name === "DeviceEnded");
  }
  assert.equal(hex(words.assemble("GetRandom 4")), "80010000000c0000017b0004");
});
