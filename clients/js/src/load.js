// Finds the module: next to this package or, in a clone of the repository, in dist/.

import { NoModule } from "./errors.js";
import { Module } from "./module.js";

const BESIDE = new URL("../tpmsim.wasm", import.meta.url);
const IN_CLONE = "../../../dist/tpmsim.wasm";

/** @typedef {{process?: {getBuiltinModule?: (name: string) => any}}} Host */
const host = /** @type {Host} */ (/** @type {unknown} */ (globalThis));

// Maps each source to its loaded module. All devices with the same source share one module.
/** @type {WeakMap<object, Promise<Module>>} */
const kept = new WeakMap();
const BESIDE_PACKAGE = {};

/**
 * Returns a file's bytes. No import names node's file module, so that bundlers for browsers do not
 * search for it.
 * @param {URL} place
 */
async function bytesAt(place) {
  const files = host.process?.getBuiltinModule?.("node:fs/promises");
  if (files !== undefined && place.protocol === "file:") return files.readFile(place);
  const answer = await fetch(place);
  if (!answer.ok) throw new Error(`${place} is answered ${answer.status}`);
  return new Uint8Array(await answer.arrayBuffer());
}

async function found() {
  try {
    return await bytesAt(BESIDE).catch(() => bytesAt(new URL(IN_CLONE, import.meta.url)));
  } catch (cause) {
    throw new NoModule("there is no tpmsim.wasm beside this package", { cause });
  }
}

/**
 * Returns the module of a source or, without a source, the module next to this package.
 * @param {BufferSource | WebAssembly.Module | undefined} source
 */
export async function loaded(source) {
  const key = source === undefined ? BESIDE_PACKAGE : Object(source);
  let module = kept.get(key);
  if (module === undefined) {
    module = source === undefined ? found().then((it) => Module.load(it)) : Module.load(source);
    kept.set(key, module);
  }
  try {
    return await module;
  } catch (fault) {
    kept.delete(key);
    throw fault;
  }
}
