// Where the WebAssembly module comes from: bytes, a Response, a URL, a compiled module, the file beside, the text of
// the module itself.
import assert from "node:assert/strict";
import { execFileSync } from "node:child_process";
import { copyFileSync, mkdtempSync, readFileSync, rmSync, writeFileSync } from "node:fs";
import { tmpdir } from "node:os";
import { join } from "node:path";
import { after, test } from "node:test";
import { fileURLToPath, pathToFileURL } from "node:url";
import { Worker } from "node:worker_threads";
import { load } from "../../javascript/vizhuthamen.mjs";
import { MODULES, ROOT } from "./common.mjs";

const folder = mkdtempSync(join(tmpdir(), "vizhuthamen-"));
after(() => rmSync(folder, { recursive: true }));
const bytes = readFileSync(MODULES[0]);
const module = new WebAssembly.Module(bytes);
const response = () => new Response(bytes, { headers: { "content-type": "application/wasm" } });
const works = (vz) => assert.deepEqual(vz.indexNumbers(512), { entries: 4, start: 256 });

test("every source", async () => {
  const copy = Uint8Array.from(bytes), part = Uint8Array.of(9, ...bytes, 9).subarray(1, -1);
  const data = `data:application/wasm;base64,${bytes.toString("base64")}`;
  const lent = [bytes, copy, copy.buffer, part, new DataView(copy.buffer)];
  const fetched = [response(), Promise.resolve(response()), new Response(bytes)];
  const named = [MODULES[0], MODULES[1].href, new URL(data), data];
  for (const source of [...lent, ...fetched, ...named, module, Promise.resolve(module)]) works(await load(source));
});

test("two libraries have nothing in common", async () => {
  const [one, other] = await Promise.all([load(module), load(module)]);
  const stream = one.streaming();
  stream.take(new Uint8Array(32));
  works(other);
  assert.equal(stream.end().count, 32);
});

test("what is no module of this version", async () => {
  const without = WebAssembly.compile(Uint8Array.of(0, 97, 115, 109, 1, 0, 0, 0));
  await assert.rejects(load(without), /the module is not that of version .*: it has no vz_sha256, /);
  for (const source of [7, null, {}, [1, 2]]) await assert.rejects(load(source), TypeError);
  await assert.rejects(load("vizhuthamen.wasm"), TypeError); // no URL
  await assert.rejects(load(new Response("", { status: 404 })), /the module is not there \(status 404\)/);
  await assert.rejects(load(new Uint8Array(8)), WebAssembly.CompileError);
  await assert.rejects(load(pathToFileURL(join(folder, "none.wasm"))), { code: "ENOENT" });
});

test("without a source the module beside, with SIMD where it is to be had", async () => {
  const script = join(folder, "vizhuthamen.mjs");
  copyFileSync(new URL("javascript/vizhuthamen.mjs", ROOT), script);
  const { load } = await import(pathToFileURL(script));
  await assert.rejects(load(), /vizhuthamen-simd\.wasm/);
  copyFileSync(MODULES[1], join(folder, "vizhuthamen-simd.wasm"));
  works(await load());
  const { validate } = WebAssembly;
  WebAssembly.validate = () => false;
  try {
    await assert.rejects(load(), /vizhuthamen\.wasm/);
    copyFileSync(MODULES[0], join(folder, "vizhuthamen.wasm"));
    works(await load());
  } finally {
    WebAssembly.validate = validate;
  }
});

test("inlined it needs no other file, in a worker too", async () => {
  const script = join(folder, "inlined", "..", "inlined.mjs");
  const text = execFileSync(fileURLToPath(new URL("tools/inline", ROOT)), { maxBuffer: 2 ** 24 });
  writeFileSync(script, text);
  const inlined = await import(pathToFileURL(script));
  rmSync(script);
  works(await inlined.load());
  const program = `${text}
    import { parentPort } from "node:worker_threads";
    parentPort.postMessage((await load()).indexNumbers(512).start);`;
  assert.equal(await answered(program), 256);
});

test("a module that was compiled here works in a worker", async () => {
  const program = `
    import { parentPort, workerData } from "node:worker_threads";
    import { load } from ${JSON.stringify(new URL("javascript/vizhuthamen.mjs", ROOT).href)};
    parentPort.postMessage((await load(workerData)).indexNumbers(512).start);`;
  assert.equal(await answered(program, module), 256);
});

/** What a worker answers that runs this text. */
function answered(program, workerData) {
  const worker = new Worker(new URL(`data:text/javascript,${encodeURIComponent(program)}`), { workerData });
  return new Promise((resolve, reject) => worker.once("message", resolve).once("error", reject));
}
