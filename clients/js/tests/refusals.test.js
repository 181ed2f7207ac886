// Tests wrong arguments. Each error must name the argument, and nothing may change.

import assert from "node:assert/strict";
import { test } from "node:test";
import { createContext, runInContext } from "node:vm";

import { BadArgument, Device, NoModule, Words } from "tpmsim";

const tpm = await Device.create({ seed: "mine" });
const command = tpm.words.assemble("Startup 0");
const zeros = new Uint8Array(256);

/** Returns a function that checks whether an error is about this argument. */
const refused = (argument) => (it) =>
  it instanceof BadArgument && it instanceof TypeError && it.name === "BadArgument" && it.argument === argument;

const NO_BYTES = [undefined, null, "80010000000c000001440000", [1, 2], {}, 7, new Uint16Array(4), zeros.buffer];

test("bytes", () => {
  const before = tpm.snapshot();
  for (const given of NO_BYTES) {
    assert.throws(() => tpm.execute(given), refused("command"));
    assert.throws(() => tpm.open(given), refused("image"));
    assert.throws(() => tpm.restore(given), refused("state"));
    assert.throws(() => tpm.words.spell(given), refused("command"));
    if (typeof given !== "string") assert.throws(() => tpm.play(given), refused("script"));
    if (given !== undefined) assert.throws(() => tpm.execute(command, { random: given }), refused("random"));
  }
  for (const size of [0, 255, 257]) {
    assert.throws(() => tpm.execute(command, { random: new Uint8Array(size) }), refused("random"));
  }
  assert.deepEqual(tpm.snapshot(), before);
});

/** Returns an array whose buffer was transferred, and one whose buffer was shortened. */
function lost(size) {
  const transferred = new Uint8Array(size);
  structuredClone(transferred.buffer, { transfer: [transferred.buffer] });
  const buffer = new ArrayBuffer(size, { maxByteLength: size });
  const shortened = new Uint8Array(buffer, 0, size);
  buffer.resize(size - 1);
  return [transferred, shortened];
}

test("bytes that are lost", async () => {
  const before = tpm.snapshot();
  for (const given of lost(256)) {
    assert.equal(given.length, 0);
    assert.throws(() => tpm.execute(given), refused("command"));
    assert.throws(() => tpm.execute(given, { complete: true }), refused("command"));
    assert.throws(() => tpm.execute(command, { random: given }), refused("random"));
    assert.throws(() => tpm.open(given), refused("image"));
    assert.throws(() => tpm.restore(given), refused("state"));
    assert.throws(() => tpm.play(given), refused("script"));
    assert.throws(() => tpm.words.spell(given), refused("command"));
    assert.throws(() => tpm.words.meaning(given), refused("response"));
    for (const name of ["seed", "manufactured", "image", "state"]) {
      await assert.rejects(Device.create({ [name]: given }), refused(name));
    }
  }
  assert.deepEqual(tpm.snapshot(), before);
  assert.throws(() => tpm.execute({ [Symbol.toStringTag]: "Uint8Array" }), refused("command"));
});

test("bytes that are lost during a call", async () => {
  const secrets = new Uint8Array(256).fill(7);
  const [other, image] = [new Uint8Array(secrets), tpm.save()];
  const creating = Device.create({ manufactured: secrets });
  structuredClone(secrets.buffer, { transfer: [secrets.buffer] });
  assert.deepEqual((await creating).save(), (await Device.create({ manufactured: other })).save());
  const opening = Device.create({ image });
  structuredClone(image.buffer, { transfer: [image.buffer] });
  await assert.rejects(opening, refused("image"));
  const script = new TextEncoder().encode("do Startup 0\ndo GetRandom 4\n");
  const played = (await Device.create()).play(script);
  assert.equal(played.next().value.trace, "Startup L0 +0 ok 00000000");
  structuredClone(script.buffer, { transfer: [script.buffer] });
  assert.equal(played.next().value.trace, "GetRandom L0 +0 ok 00000000");
});

test("bytes of another realm are bytes", () => {
  const other = runInContext("new Uint8Array([0x80, 1])", createContext());
  assert.ok(!(other instanceof Uint8Array));
  assert.equal(tpm.execute(other).row.check, "G1");
});

test("numbers", () => {
  for (const given of [-1, 5, 1.5, NaN, Infinity, "1", null, 1n, {}]) {
    assert.throws(() => tpm.execute(command, { locality: given }), refused("locality"));
  }
  for (const given of [-1, 2 ** 32, 0.5, NaN, "1", null, 1n]) {
    assert.throws(() => tpm.execute(command, { elapsed: given }), refused("elapsed"));
  }
  for (const given of [-1, 2 ** 32, 0.5, NaN]) {
    assert.throws(() => tpm.words.meaning(given), refused("code"));
    for (const name of ["commandName", "commandForm", "commandExample"]) {
      assert.throws(() => tpm.words[name](given), refused("code"));
    }
  }
  assert.throws(() => tpm.words.meaning("98e"), refused("response"));
  assert.throws(() => tpm.words.meaning(new Uint8Array(9)), refused("response"));
});

test("words", () => {
  for (const given of [undefined, null, 7, command]) {
    assert.throws(() => tpm.words.assemble(given), refused("line"));
    assert.throws(() => tpm.do(given), refused("line"));
    assert.throws(() => tpm.words.commandNumber(given), refused("name"));
  }
});

test("options", async () => {
  assert.throws(() => tpm.execute(command, { elasped: 5 }), refused("elasped"));
  assert.throws(() => tpm.execute(command, { complete: 1 }), refused("complete"));
  for (const given of [null, 7, "locality"]) {
    assert.throws(() => tpm.execute(command, given), refused("options"));
    await assert.rejects(Device.create(given), refused("options"));
    await assert.rejects(Words.load(given), refused("options"));
  }
  await assert.rejects(Device.create({ sead: "mine" }), refused("sead"));
  await assert.rejects(Device.create({ seed: 7 }), refused("seed"));
  await assert.rejects(Device.create({ manufactured: new Uint8Array(255) }), refused("manufactured"));
  await assert.rejects(Device.create({ image: "54504d49" }), refused("image"));
  await assert.rejects(Device.create({ state: [1] }), refused("state"));
  assert.equal(tpm.execute(command, undefined).row.check, "ok");
});

test("constructors", () => {
  assert.throws(() => new Device(), refused("key"));
  assert.throws(() => new Words(), refused("module"));
});

test("modules", async () => {
  // A module without exports, and a module with an import.
  const empty = Uint8Array.of(0, 0x61, 0x73, 0x6d, 1, 0, 0, 0);
  for (const module of [zeros, new Uint8Array(), empty, empty.buffer, await WebAssembly.compile(empty), "tpmsim.wasm", 7]) {
    await assert.rejects(Device.create({ module }), (it) => it instanceof NoModule && it.name === "NoModule");
    await assert.rejects(Words.load({ module }), NoModule);
  }
});
