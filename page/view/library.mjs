// The worker and the library's module: compiled once, and posted to every worker that is started.

const INLINED = (name) => document.getElementById(name).textContent;

function bytesOf(name) {
  return Uint8Array.from(atob(INLINED(name)), (character) => character.charCodeAt(0));
}

// The module with SIMD where the browser has it.
const compiled = WebAssembly.compile(bytesOf("module-simd")).catch(() => WebAssembly.compile(bytesOf("module")));

// A classic worker: browsers refuse a module of a page that was opened from disk.
const source = URL.createObjectURL(new Blob([INLINED("worker")], { type: "text/javascript" }));
const open = new Map(); // the questions that are not answered yet
let worker; // the one at work, or none before the first question and after one that has failed
let asked = 0;

async function started() {
  const module = await compiled;
  const one = new Worker(source);
  one.addEventListener("message", ({ data }) => heard(data));
  one.addEventListener("error", (event) => {
    event.preventDefault();
    one.terminate();
    worker = undefined;
    for (const id of [...open.keys()]) fail(id, `this could not be done: ${event.message ?? "the worker has ended"}`);
  });
  one.postMessage({ module });
  return one;
}

function fail(id, words) {
  heard({ id, fault: { words } });
}

function heard({ id, share, words, answer, fault }) {
  const question = open.get(id);
  if (question === undefined) return;
  if (words !== undefined) return question.report(share, words);
  open.delete(id);
  if (fault === undefined) question.resolve(answer);
  else question.reject(fault);
}

/** The answer of the worker to a question; it tells how far it is by `report`. A fault has words, and the field that it
 * is about. */
export function ask(task, question, report) {
  asked += 1;
  const id = asked;
  return new Promise((resolve, reject) => {
    open.set(id, { resolve, reject, report });
    worker ??= started();
    worker.then((one) => one.postMessage({ id, task, question }))
      .catch((error) => fail(id, `the library cannot be started: ${error.message}`));
  });
}
