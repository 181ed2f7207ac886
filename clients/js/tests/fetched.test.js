// Tests the package as a web page loads it: a server serves its files, and `fetch` loads the
// module.

import assert from "node:assert/strict";
import { execFile } from "node:child_process";
import { once } from "node:events";
import { readFile } from "node:fs/promises";
import { createServer } from "node:http";
import { test } from "node:test";
import { promisify } from "node:util";

const TYPES = { js: "text/javascript", wasm: "application/wasm" };
const FLAG = "--experimental-network-imports";
const IN_CLONE = "../../../dist/";

/** Serves the package, and also the folder dist/ next to it, as in a clone. */
async function served() {
  const server = createServer(async (request, response) => {
    const path = request.url.slice(1);
    const place = path.startsWith("dist/") ? IN_CLONE + path.slice("dist/".length) : `../${path.replace(/^clients\/js\//, "")}`;
    try {
      const bytes = await readFile(new URL(place, import.meta.url));
      response.writeHead(200, { "content-type": TYPES[path.split(".").at(-1)] });
      response.end(bytes);
    } catch {
      response.writeHead(404);
      response.end();
    }
  });
  server.listen(0, "127.0.0.1");
  await once(server, "listening");
  return server;
}

const PROGRAM = (port) => `
import { Device } from "http://127.0.0.1:${port}/clients/js/src/index.js";
const tpm = await Device.create();
console.log(tpm.do("Startup 0").trace);
`;

test("a page's package", { skip: !process.allowedNodeEnvironmentFlags.has(FLAG) }, async () => {
  const server = await served();
  try {
    const words = [FLAG, "--no-warnings", "--input-type=module", "--eval", PROGRAM(server.address().port)];
    const { stdout } = await promisify(execFile)(process.execPath, words);
    assert.equal(stdout, "Startup L0 +0 ok 00000000\n");
  } finally {
    server.close();
  }
});
