// Tests the memory that devices allocate and free.

import assert from "node:assert/strict";
import { readFile } from "node:fs/promises";
import { test } from "node:test";
import { setTimeout } from "node:timers/promises";
import { setFlagsFromString } from "node:v8";
import { runInNewContext } from "node:vm";

// The number of pages by which the module's memory grew.
let grown = 0;
const { grow } = WebAssembly.Memory.prototype;
WebAssembly.Memory.prototype.grow = function count(pages) {
  grown += pages;
  return grow.call(this, pages);
};

const { Device } = await import("tpmsim");

setFlagsFromString("--expose-gc");
const collect = runInNewContext("gc");

const zeros = new Uint8Array(256);

/** Returns the number of pages by which the memory grows during a task. */
async function grownBy(task) {
  const before = grown;
  await task();
  return grown - before;
}

test("100,000 commands take no memory", async () => {
  const tpm = await Device.create();
  tpm.do("Startup 0");
  const commands = ["GetRandom 32", "PCR_Read sha256:0,1,2", "ReadClock"].map((it) => tpm.words.assemble(it));
  const run = (count) => {
    for (let at = 0; at < count; at++) tpm.execute(commands[at % 3], { elapsed: 1 });
  };
  run(3000);
  collect();
  const before = process.memoryUsage().rss;
  assert.equal(await grownBy(() => run(100_000)), 0);
  collect();
  assert.ok(process.memoryUsage().rss - before < 32 * 2 ** 20);
  tpm.dispose();
});

test("20,000 snapshots, images and lines take no memory", async () => {
  const tpm = await Device.create();
  tpm.do("Startup 0");
  const turn = () => {
    tpm.restore(tpm.snapshot());
    tpm.save();
    tpm.kept();
    tpm.words.spell(tpm.words.assemble("GetRandom 4"));
    tpm.words.meaning(0x98e);
  };
  turn();
  const pages = await grownBy(() => {
    for (let count = 0; count < 20_000; count++) turn();
  });
  assert.equal(pages, 0);
  tpm.dispose();
});

test("a device that was disposed of gives its memory to the next one", async () => {
  (await Device.create()).dispose();
  const pages = await grownBy(async () => {
    for (let count = 0; count < 1000; count++) {
      const tpm = await Device.create({ manufactured: zeros });
      tpm.do("Startup 0");
      tpm.dispose();
    }
  });
  assert.equal(pages, 0);
});

test("200 devices at once, and then 200 others", async () => {
  const devices = () => Promise.all(Array.from({ length: 200 }, () => Device.create()));
  let held = await devices();
  held.forEach((it) => assert.equal(it.do("Startup 0").row.check, "ok"));
  held.forEach((it) => it.dispose());
  assert.equal(await grownBy(async () => (held = await devices())), 0);
  held.forEach((it) => it.dispose());
});

test("a device that its program forgets gives its memory back", async () => {
  const forget = async () => {
    for (let count = 0; count < 300; count++) await Device.create({ manufactured: zeros });
  };
  await forget();
  collect();
  await setTimeout(100);
  assert.ok((await grownBy(forget)) < 20);
});

test("a new device finds nothing of the one before", async () => {
  const { Memory } = await import("../src/memory.js");
  const memory = new Memory(new WebAssembly.Memory({ initial: 1 }), 1000);
  const at = memory.lend(100);
  memory.put(at, new Uint8Array(100).fill(7));
  memory.free(at, 100);
  assert.equal(memory.lend(100), at);
  assert.deepEqual(memory.take(at, 100), new Uint8Array(100));
});

test("devices of one module of the program's own share its memory", async () => {
  const bytes = await readFile(process.env.TPMSIM_MODULE ?? new URL("../../../dist/tpmsim.wasm", import.meta.url));
  const compiled = await WebAssembly.compile(bytes);
  for (const module of [compiled, bytes]) {
    const make = async () => (await Device.create({ module })).do("Startup 0").row.check;
    assert.equal(await make(), "ok");
    const instantiate = WebAssembly.instantiate;
    WebAssembly.instantiate = () => assert.fail("it is instantiated again");
    try {
      assert.equal(await make(), "ok");
    } finally {
      WebAssembly.instantiate = instantiate;
    }
  }
});

test("a large command is answered, and the memory for it is used again", async () => {
  const tpm = await Device.create();
  const large = new Uint8Array(3_000_000);
  const first = await grownBy(() => tpm.execute(large));
  assert.ok(first > 0);
  assert.equal(await grownBy(() => tpm.execute(large)), 0);
  assert.equal(tpm.do("Startup 0").row.check, "ok");
  tpm.dispose();
});
