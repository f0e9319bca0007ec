// Watches every call of the WebAssembly modules that are instantiated from now on: the functions that the JavaScript
// module finds in one are its own with these tests around them, by the parameters of include/vizhuthamen.h
// (target/targets/header.json).
import { readFileSync } from "node:fs";

const ROUTINES = JSON.parse(readFileSync(new URL("../target/targets/header.json", import.meta.url))).routines;
const PATTERN = 0xa5;
const NUMBERS = { "u64*": 8, "u32*": 4 };
// The codes with which outputs are written, where 0 is not the only one: numbers with 15, strings with 17, a stream's
// state with all but 12; of a log that is played back, rows and their number with 0 and all else with 256.
const WRITING = { vz_stream_take: [0, 2, 11] };
const WITH_0 = { vz_playback: ["count", "rows"] };
function writes(routine, output, code) {
  if (routine in WITH_0) return code === (WITH_0[routine].includes(output) ? 0 : 256);
  return (WRITING[routine] ?? [0, 15, 17]).includes(code);
}

// The memory that a call is lent: the parameter's name, where it lies, and whether it is written.
function lentTo(routine, words) {
  const rest = words.values(), lent = [];
  for (const [kind, name] of ROUTINES[routine]) {
    const word = rest.next().value;
    if (kind === "in" || kind === "out") {
      lent.push({ name, at: Number(word), length: Number(rest.next().value), written: kind === "out" });
    }
    if (kind in NUMBERS) lent.push({ name, at: Number(word), length: NUMBERS[kind], written: true, number: true });
  }
  return lent;
}

function watchedCall(name, exports) {
  return (...words) => {
    const bytes = Buffer.from(exports.memory.buffer);
    const lent = lentTo(name, words);
    for (const { at, length, number } of lent) if (number) bytes.fill(PATTERN, at, at + length);
    const before = lent.map(({ at, length }) => Buffer.from(bytes.subarray(at, at + length)));
    const code = exports[name](...words);
    for (const [i, { name: output, at, length, written }] of lent.entries()) {
      const stays = !written || !writes(name, output, code);
      if (stays && !before[i].equals(bytes.subarray(at, at + length))) {
        throw new Error(`${name} changes lent memory with code ${code}`);
      }
    }
    return code;
  };
}

/** Starts to watch; `judge` afterwards looks whether a stack was ever filled by more than a tenth. */
export function watched() {
  const { instantiate } = WebAssembly, stacks = [];
  WebAssembly.instantiate = async (...given) => {
    const instance = await instantiate(...given), { exports } = instance;
    if (!("vz_sha256" in exports)) return instance; // of node itself
    const stack = () => Buffer.from(exports.memory.buffer, 0, Number(exports.__stack_pointer.value));
    stack().fill(PATTERN);
    stacks.push(stack);
    const functions = Object.keys(ROUTINES).map((name) => [name, watchedCall(name, exports)]);
    return { exports: { ...exports, ...Object.fromEntries(functions) } };
  };
  return {
    judge() {
      for (const stack of stacks.map((each) => each())) {
        const used = stack.length - stack.findIndex((byte) => byte !== PATTERN);
        if (used > stack.length / 10 && used <= stack.length) {
          throw new Error(`${used} bytes of a stack of ${stack.length} were used`);
        }
      }
    },
  };
}
