// Checks the call that throws refusals, logs, and the end of a device by `using`.

import assert from "node:assert/strict";
import { test } from "node:test";

import { Device, Refused } from "tpmsim";

test("a refusal is thrown", async () => {
  const tpm = await Device.create({ seed: "mine" });
  assert.throws(() => tpm.accepted("GetRandom 4"), (fault) => {
    assert.ok(fault instanceof Refused);
    assert.equal(fault.message, "GetRandom: INITIALIZE (100), by G5");
    assert.deepEqual([fault.name, fault.code, fault.meaning?.name], ["Refused", 0x100, "INITIALIZE"]);
    assert.equal(fault.answer.response.length, 10);
    return true;
  });
  tpm.accepted("Startup 0");
  const { response } = tpm.accepted(tpm.words.assemble("GetRandom 4"));
  assert.equal(response.length, 16);
  const decrypt = Uint8Array.of(0x80, 1, 0, 0, 0, 10, 0, 0, 1, 0x59);
  assert.throws(() => tpm.accepted(decrypt), { message: "RSA_Decrypt (159): tpmsim has no such command: COMMAND_CODE (143), by G4" });
  const unknown = Uint8Array.of(0x80, 1, 0, 0, 0, 10, 0, 0, 0x0b, 0xad);
  assert.throws(() => tpm.accepted(unknown), { message: "unknown command (BAD): tpmsim has no such command: COMMAND_CODE (143), by G4" });
  const turned = Uint8Array.of(0x80, 1, 0, 0, 0, 10, 0x7b, 1, 0, 0);
  assert.throws(() => tpm.accepted(turned), { message: "unknown command (7B010000): its bytes in the other order are GetRandom: COMMAND_CODE (143), by G4" });
  const wrong = "Clear LOCKOUT pw:6e6f";
  assert.throws(() => tpm.accepted(wrong), { message: "Clear: AUTH_FAIL/s1 (98E), by G9" });
});

test("a log begins where it is asked for", async () => {
  const tpm = await Device.create({ seed: "mine" });
  tpm.do("Startup 0");
  assert.equal(tpm.log, "");
  tpm.beginLog();
  tpm.do("GetRandom 1", { locality: 3, elapsed: 7 });
  tpm.powerCycle();
  tpm.do("Startup 0", { complete: true });
  const words = tpm.log.split("\n").map((line) => line.split(" ", 2)[0]);
  const command = ["entropy", "cmd", "#"];
  assert.deepEqual(words, ["#", "loc", "wait", ...command, "power", "#", "loc", ...command, ""]);
  tpm.restore(tpm.snapshot());
  assert.equal(tpm.log.split("\n").length, 2);
  tpm.open(tpm.save());
  assert.equal(tpm.log.split("\n").length, 2);
});

test("a device is disposed of at the end of a block", async () => {
  const tpm = await Device.create();
  assert.equal(typeof Symbol.dispose, "symbol");
  tpm[Symbol.dispose]();
  assert.throws(() => tpm.save(), { name: "DeviceEnded" });
});
