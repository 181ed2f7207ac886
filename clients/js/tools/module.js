// Copies the module into this folder for `npm pack`, which cannot pack files from other folders,
// and the types for CommonJS. In the packed README, a link to a file outside the package becomes its
// words. Undoes all of this afterwards, because the repository contains each file only once.
//
//   node tools/module.js take|leave

import { copyFile, readFile, rename, rm, writeFile } from "node:fs/promises";

const source = new URL("../../../dist/tpmsim.wasm", import.meta.url);
const place = new URL("../tpmsim.wasm", import.meta.url);
const types = new URL("../index.d.ts", import.meta.url);
const typesForCommonJS = new URL("../index.d.cts", import.meta.url);
const readme = new URL("../README.md", import.meta.url);
const keptReadme = new URL("../kept.README.md", import.meta.url);

async function take() {
  await copyFile(source, place);
  await copyFile(types, typesForCommonJS);
  const text = await readFile(readme, "utf8");
  await rename(readme, keptReadme);
  await writeFile(readme, text.replace(/\[([^\]]*)\]\(\.\.\/[^)]*\)/g, "$1"));
}

async function leave() {
  for (const made of [place, typesForCommonJS]) await rm(made, { force: true });
  await rename(keptReadme, readme);
}

const [word] = process.argv.slice(2);
if (word === "take") await take();
else if (word === "leave") await leave();
else throw new Error("usage: node tools/module.js take|leave");
