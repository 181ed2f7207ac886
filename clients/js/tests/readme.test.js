// Checks that the examples of README.md print the output that is shown below them.

import assert from "node:assert/strict";
import { execFileSync } from "node:child_process";
import { readFileSync } from "node:fs";
import { test } from "node:test";
import { fileURLToPath } from "node:url";

const package_ = fileURLToPath(new URL("..", import.meta.url));
const readme = readFileSync(`${package_}/README.md`, "utf8");
const examples = [...readme.matchAll(/^```js\n(.*?)^```\n\n```text\n(.*?)^```\n/gms)];

test("there are examples, each with what it prints", () => {
  assert.ok(examples.length >= 3);
  assert.equal(examples.length, [...readme.matchAll(/^```js$/gm)].length);
});

for (const [number, [, program, printed]] of examples.entries()) {
  test(`example ${number + 1}`, () => {
    const words = ["--input-type=module", "--eval", program];
    assert.equal(execFileSync(process.execPath, words, { cwd: package_, encoding: "utf8" }), printed);
  });
}
