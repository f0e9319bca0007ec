// That the JavaScript module is the image of the header, of the Rust crate, and of what it is typed by.
import assert from "node:assert/strict";
import { readFileSync } from "node:fs";
import { test } from "node:test";
import * as module from "../../javascript/vizhuthamen.mjs";
import { HEADER, MODULES, text } from "./common.mjs";

const vz = await module.load(MODULES[0]);
const types = text("javascript/vizhuthamen.d.mts");
const camel = (name) => name.replace(/_([a-z])/g, (_, letter) => letter.toUpperCase());

/** The first parts of what matches, sorted. */
const names = (source, pattern) => [...source.matchAll(pattern)].map((found) => found[1]).sort();
/** The members of a declaration. */
const members = (name) => {
  const body = types.match(new RegExp(`^export (?:interface|class) ${name}\\b[^{]*\\{([^]*?)^\\}`, "m"))[1];
  return names(body, /^ {2}(?:readonly )?(\w+)\??[(:]/gm);
};

test("the functions of the modules and of the table are the header's", () => {
  const stated = Object.keys(HEADER.routines).sort();
  for (const url of MODULES) {
    const compiled = new WebAssembly.Module(readFileSync(url));
    const exported = WebAssembly.Module.exports(compiled).map(({ name }) => name).sort();
    assert.deepEqual(exported, ["__heap_base", "__stack_pointer", "memory", ...stated]);
    assert.deepEqual(WebAssembly.Module.imports(compiled), []);
  }
  const table = [...text("javascript/vizhuthamen.mjs").matchAll(/^ {2}(vz_\w+): "(.*)",$/gm)]
    .map(([, name, kinds]) => [name, kinds]);
  const kinds = ([name, parameters]) => [name, parameters.map(([kind]) => kind).join(" ")];
  assert.deepEqual(Object.fromEntries(table), Object.fromEntries(Object.entries(HEADER.routines).map(kinds)));
});

test("the codes and their meanings are the header's", () => {
  assert.ok(HEADER.codes.length > 20);
  const { OK, ...stated } = Object.fromEntries(HEADER.codes.map(([number, name]) => [name, number]));
  assert.equal(OK, 0);
  assert.deepEqual(Object.fromEntries(Object.entries(module.Refusal)), stated);
  const meanings = new Map(HEADER.codes.map(([number, , meaning]) => [number, meaning]));
  for (const number of [...Array(300).keys(), -1, 1.5, 2 ** 32, "length"]) {
    assert.equal(module.meaning(number), meanings.get(number) ?? "unknown code");
  }
});

test("the states of an audit are the header's", () => {
  const stated = [...text("include/vizhuthamen.h").matchAll(/^ {2}VZ_SLOT_(\w+) = (\d)/gm)];
  assert.deepEqual(stated.map(([, name, number]) => [name.toLowerCase().replaceAll("_", " "), Number(number)]),
    module.SLOT_STATES.map((state, number) => [state, number]));
});

test("the lengths and the version are the header's", () => {
  for (const [name, length] of Object.entries(HEADER.lengths)) assert.equal(module[name], length, name);
  assert.equal(`#define VZ_WRONG_LINE ${module.WRONG_LINE}`,
    text("include/vizhuthamen.h").match(/^#define VZ_WRONG_LINE .*$/m)[0]);
  assert.equal(module.VERSION, HEADER.version);
});

// What the Rust crate has besides: types that are bytes, iterators or texts here, and how many threads may work.
const RUST_ALONE = [
  "Node", "NotANode", "Fields", "Lines", "Fault", "commitment_with_threads", "tree_fill_with_threads",
];

test("the names are the Rust crate's", () => {
  const uses = [...text("rust/src/lib.rs").matchAll(/^pub use \w+::(?:\{([^}]*)\}|(\w+));/gm)];
  const crate = uses.flatMap(([, several, one]) => (several ?? one).split(","))
    .map((name) => name.trim()).filter(Boolean);
  assert.ok(crate.length > 40);
  const typed = names(types, /^export (?:interface|type|class) (\w+)/gm);
  const here = new Set([...Object.keys(module), ...Object.keys(vz), ...typed]);
  assert.deepEqual(crate.filter((name) => !RUST_ALONE.includes(name) && !here.has(camel(name)) && !here.has(name)), []);
});

test("every export is typed, and nothing else", () => {
  assert.deepEqual(names(types, /^export (?:const|function|class) (\w+)/gm), Object.keys(module).sort());
  assert.deepEqual(members("Vizhuthamen"), Object.keys(vz).sort());
  const own = (value) =>
    Object.getOwnPropertyNames(Object.getPrototypeOf(value)).filter((name) => name !== "constructor").sort();
  assert.deepEqual(members("Streaming"), own(vz.streaming()));
  assert.deepEqual(members("RawStreaming"), own(vz.rawStreaming()));
  const statics = [...types.matchAll(/^ {2}static readonly (\w+): (\d+);/gm)]
    .map(([, name, number]) => [name, Number(number)]);
  assert.deepEqual(Object.fromEntries(statics), Object.fromEntries(Object.entries(module.Refusal)));
  for (const name of ["hex", "cid", "line"]) {
    const body = types.match(new RegExp(`^export const ${name}: \\{([^]*?)^\\}`, "m"))[1];
    assert.deepEqual(names(body, /^ {2}(\w+)\(/gm), Object.keys(module[name]).sort());
  }
});
