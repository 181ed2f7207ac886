// Checks that a seed results in the same random bytes in each run, and in the Python package.

import assert from "node:assert/strict";
import { spawnSync } from "node:child_process";
import { createHash } from "node:crypto";
import { test } from "node:test";
import { fileURLToPath } from "node:url";

import { Device } from "tpmsim";

import { shake256 } from "../src/shake.js";
import { hex } from "./common.js";

const top = process.env.TPMSIM_REPOSITORY ?? fileURLToPath(new URL("../../..", import.meta.url));

test("SHAKE256 is node's", () => {
  for (let size = 0; size < 300; size++) {
    const text = Uint8Array.from({ length: size }, (_, at) => at * 7 + size);
    for (const outputLength of [1, 135, 136, 137, 256, 300]) {
      const wanted = createHash("shake256", { outputLength }).update(text).digest("hex");
      assert.equal(hex(shake256(text, outputLength)), wanted);
    }
  }
});

/** Returns the image of a new device from a seed, and its responses. */
async function told(seed) {
  const tpm = await Device.create({ seed });
  const lines = ["Startup 0", "GetRandom 8", "ReadClock", "GetRandom 16"];
  const answers = [hex(tpm.save()), ...lines.map((it) => hex(tpm.do(it).response))];
  tpm.dispose();
  return answers;
}

test("the same seed, in words or in bytes, makes the same device", async () => {
  const first = await told("mine");
  assert.deepEqual(await told("mine"), first);
  assert.deepEqual(await told(Buffer.from("mine")), first);
  assert.notDeepEqual(await told("yours"), first);
  assert.notDeepEqual(await told(""), await told("0"));
  assert.notEqual(first[2], first[4]);
});

test("random bytes of the caller leave the others as they are", async () => {
  const [one, other] = await Promise.all([1, 2].map(() => Device.create({ seed: "mine" })));
  for (const tpm of [one, other]) tpm.do("Startup 0");
  other.do("GetRandom 8", { random: new Uint8Array(256) });
  assert.deepEqual(one.do("GetRandom 8").response, other.do("GetRandom 8").response);
});

const IN_PYTHON = `
from tpmsim.device import Device
from tpmsim.standard.lines import assemble
with Device(seed=b"mine") as device:
    print(device.save().hex())
    for line in (b"Startup 0", b"GetRandom 8", b"ReadClock", b"GetRandom 16"):
        print(device.execute(assemble(line)).response.hex())
`;

test("Python's device of the same seed is this one", async (context) => {
  const env = { ...process.env, PYTHONPATH: `${top}/clients/python` };
  const python = spawnSync("python3", ["-c", IN_PYTHON], { env, encoding: "utf8" });
  if (python.error || /No module named 'tpmsim'/.test(python.stderr)) {
    context.skip("there is no python3 with the package");
    return;
  }
  assert.equal(python.stderr, "");
  assert.deepEqual(python.stdout.trimEnd().split("\n"), await told("mine"));
});
