// What the tests of the JavaScript module have in common.
import assert from "node:assert/strict";
import { readFileSync } from "node:fs";
import { load, Refusal } from "../../javascript/vizhuthamen.mjs";

export const ROOT = new URL("../../", import.meta.url);
export const text = (name) => readFileSync(new URL(name, ROOT), "utf8");
/** What include/vizhuthamen.h states, as tests/targets.py has written it down. */
export const HEADER = JSON.parse(text("target/targets/header.json"));
export const MODULES = ["vizhuthamen.wasm", "vizhuthamen-simd.wasm"].map((name) => new URL(`target/lib/${name}`, ROOT));

/** The library, and the instance that it calls; `change` gives it other exports. */
export async function watchedLoad(change = (exports) => exports) {
  const { instantiate } = WebAssembly;
  let instance;
  WebAssembly.instantiate = async (module) => {
    instance = await instantiate(module);
    return { exports: change(instance.exports) };
  };
  try {
    return [await load(readFileSync(MODULES[0])), instance];
  } finally {
    WebAssembly.instantiate = instantiate;
  }
}

/** The call throws this refusal. */
export function refused(code, call) {
  assert.throws(call, (error) => error instanceof Refusal && error.code === code, `code ${code}: ${call}`);
}

/** Bytes without stray bits, of which no two nodes are the same. */
export function nodes(length, seed = 1) {
  const bytes = new Uint8Array(length);
  let state = seed;
  for (let i = 0; i < length; i++) {
    state = (Math.imul(state, 1664525) + 1013904223) >>> 0;
    bytes[i] = i % 32 === 31 ? (state >>> 24) & 0x3f : state >>> 24;
  }
  return bytes;
}
