// Tests what the page decrypts: page_plain.mjs PAGE FACTS MODULE CASES.
//
// It compares the page's digests, HMACs and AES with published examples and with node. For scripts
// whose sessions encrypt parameters, it compares the decrypted parameters with those of the Python
// device. It also does this with a log of another device.

import crypto from "node:crypto";
import fs from "node:fs";
import path from "node:path";
import { pathToFileURL } from "node:url";

const [folder, facts, module, cases] = process.argv.slice(2);
const from = (name) => import(pathToFileURL(path.join(folder, name)));
const { cfbDecrypted } = await from("aes.js");
const { bytesOf, encoded, hexOf } = await from("bytes.js");
const { Chip } = await from("device.js");
const { HASHES, hmac } = await from("digests.js");
const { learn } = await from("facts.js");
const { plainCommand, plainResponse } = await from("plain.js");
const { Run } = await from("run.js");
const { logOf, readScript } = await from("script.js");
learn(JSON.parse(fs.readFileSync(facts, "utf8")));
const chip = await Chip.load(fs.readFileSync(module), 2);

function say(holds, what, more = "") {
  console.log(`${holds ? "yes" : "NO"}: ${what}${holds ? "" : ` (${more})`}`);
  if (!holds) process.exitCode = 1;
}

const ALG = { sha1: 4, sha256: 11, sha384: 12, sha512: 13 };

// FIPS 180-4: the digests of "abc".
const OF_ABC = {
  sha1: "a9993e364706816aba3e25717850c26c9cd0d89d",
  sha256: "ba7816bf8f01cfea414140de5dae2223b00361a396177a9cb410ff61f20015ad",
  sha384: "cb00753f45a35e8bb5a03d699ac65007272c32ab0eded1631a8b605a43ff5bed8086072ba1e7cc2358baeca134c825a7",
  sha512: "ddaf35a193617abacc417349ae20413112e6fa4e89a97ea20a9eeee64b55d39a2192992a274fc1a836ba3c23a3feebbd454d4423643ce80e2a9ac94fa54ca49f",
};
// RFC 2202 and RFC 4231: the HMACs of test case 2.
const OF_JEFE = {
  sha1: "effcdf6ae5eb2fa2d27416d5f184df9c259a7c79",
  sha256: "5bdcc146bf60754e6a042426089575c75a003f089d2739839dec58b964ec3843",
  sha384: "af45d2e376484031617f78d2b58a6b1b9c7ef464f5a01b47e42ec3736322445e8e2240ca5e69e2c78b3239ecfab21649",
  sha512: "164b7a7bfcf819e2e395fbe73b56e0a387bd64222e831fd610270cd7ea2505549758bf75c05a994a6d034f65f8f0e6fdcaeab1a34d4a6b4b636e070a38bce737",
};
// SP 800-38A, F.3.13 to F.3.18: each key, with the four blocks that encrypting TEXT results in.
const IV = "000102030405060708090a0b0c0d0e0f";
const TEXT = "6bc1bee22e409f96e93d7e117393172aae2d8a571e03ac9c9eb76fac45af8e5130c81c46a35ce411e5fbc1191a0a52eff69f2445df4f9b17ad2b417be66c3710";
const OF_CFB = [
  ["2b7e151628aed2a6abf7158809cf4f3c", "3b3fd92eb72dad20333449f8e83cfb4ac8a64537a0b3a93fcde3cdad9f1ce58b26751f67a3cbb140b1808cf187a4f4dfc04b05357c5d1c0eeac4c66f9ff7f2e6"],
  ["8e73b0f7da0e6452c810f32b809079e562f8ead2522c6b7b", "cdc80d6fddf18cab34c25909c99a417467ce7f7f81173621961a2b70171d3d7a2e1e8a1dd59b88b1c8e60fed1efac4c9c05f9f9ca9834fa042ae8fba584b09ff"],
  ["603deb1015ca71be2b73aef0857d77811f352c073b6108d72d9810a30914dff4", "dc7e84bfda79164b7ecd8486985d386039ffed143b28b1c832113c6331e5407bdf10132415e54b92a13ed0a8267ae2f975a385741ab9cef82031623d55b1e471"],
];

function vectors() {
  const digest = (name, text) => hexOf(HASHES.get(ALG[name]).digest(text));
  say(Object.entries(OF_ABC).every(([name, wanted]) => digest(name, encoded("abc")) === wanted), "digests are those of FIPS 180-4");
  const mac = (name) => hexOf(hmac(HASHES.get(ALG[name]), encoded("Jefe"), encoded("what do ya want for nothing?")));
  say(Object.entries(OF_JEFE).every(([name, wanted]) => mac(name) === wanted), "HMACs are those of RFC 2202 and RFC 4231");
  say(OF_CFB.every(([key, text]) => hexOf(cfbDecrypted(bytesOf(key), bytesOf(IV), bytesOf(text))) === TEXT), "AES in CFB is that of SP 800-38A");
  const sizes = [0, 1, 55, 56, 63, 64, 111, 112, 119, 127, 128, 200];
  const bytes = (size) => Uint8Array.from({ length: size }, (_, at) => (at * 37) & 255);
  const isNodes = (name, size) =>
    digest(name, bytes(size)) === crypto.createHash(name).update(bytes(size)).digest("hex")
    && hexOf(hmac(HASHES.get(ALG[name]), bytes(size), bytes(9))) === crypto.createHmac(name, bytes(size)).update(bytes(9)).digest("hex");
  say(Object.keys(ALG).every((name) => sizes.every((size) => isNodes(name, size))), "digests and HMACs of all sizes are those of node");
}

function played(text) {
  const run = new Run(chip);
  const script = readScript(chip, text.split("\n"));
  run.take(script.steps);
  run.play(script.steps.length, 0);
  return { run, script };
}

/** Returns the decrypted bytes, or the reason why they are not decrypted. */
const wordsOf = (plain) => plain && (plain.reason || hexOf(plain.bytes.subarray(plain.from, plain.to)));

/** Compares the steps of a script with the expected ones. Returns the differences, and the number of
 * compared steps. */
function differing(name, { run, script }, asked, answered) {
  const found = [];
  let count = 0;
  script.steps.forEach((step, at) => {
    for (const [wanted, plain] of [[asked[step.line], plainCommand], [answered[step.line], plainResponse]]) {
      if (wanted === undefined) continue;
      count += 1;
      const own = wordsOf(plain(run, at));
      if (own !== wanted) found.push(`${path.basename(name)} line ${step.line + 1}: ${own}, wanted ${wanted}`);
    }
  });
  return { found, count };
}

/** Compares a log of the same script on another device, which draws other random bytes, so that the
 * nonces differ. */
function elsewhere(name, { run, script }, asked, answered) {
  const log = logOf(script, run.answers).split("\n");
  const events = log.flatMap((line, number) => (/^(?:do|cmd|power)/.test(line) ? [number] : []));
  const lineIn = new Map(script.steps.map((step, at) => [step.line, events[at]]));
  const moved = (those) => Object.fromEntries(Object.entries(those).map(([line, hex]) => [lineIn.get(Number(line)), hex]));
  const text = log.map((line) => (line.startsWith("entropy ") ? "#" : line)).join("\n");
  return differing(name, played(text), moved(asked), moved(answered));
}

vectors();
const UNKNOWN = /: (?:the|it|its|an) [a-z]/;
const MOST_ELSEWHERE = 10;
const own = { found: [], count: 0 };
const other = { found: [], count: 0 };
const all = fs.readFileSync(cases, "utf8").split("\n").filter(Boolean).map((it) => JSON.parse(it));
for (const [at, [name, asked, answered]] of all.entries()) {
  const it = played(fs.readFileSync(name, "utf8"));
  const sums = [[own, differing], ...(at < MOST_ELSEWHERE ? [[other, elsewhere]] : [])];
  for (const [sum, look] of sums) {
    const { found, count } = look(name, it, asked, answered);
    sum.found.push(...found);
    sum.count += count;
  }
}
const wrong = other.found.filter((words) => !UNKNOWN.test(words));
const unknown = other.found.length - wrong.length;
if (process.env.FIGURES) console.log(`${all.length} scripts, ${own.count} parameters; ${other.count} of other devices, of which ${unknown} are not known`);
say(own.count > 300 && !own.found.length, "what sessions encrypted is decrypted, as the device in Python has it", own.found.slice(0, 4).join("; "));
say(!wrong.length && unknown < other.count / 4, "in a log of another device too, or it is said why not", `${unknown} of ${other.count} unknown; ${wrong.slice(0, 4).join("; ")}`);
