#!/usr/bin/env node
// Answers calls as the replay program does, by the JavaScript module over every WebAssembly module that is named, which
// must answer alike:
//
//     node tests/replay_node.mjs target/targets/vizhuthamen.wasm target/targets/vizhuthamen-simd.wasm < CASES
//
// A case and its line are those of tests/operations.py. Every call is watched on its way to a module: memory that is
// lent to be read stays as it was, and so does memory that is lent to be written where the code writes none; most of
// the stack stays unused.
import { createHash } from "node:crypto";
import { readFileSync } from "node:fs";
import { line as logLine, lines as logLines, load, Malformed, Refusal, ROWS } from "../javascript/vizhuthamen.mjs";
import { watched } from "./watched.mjs";

const PART = 1 << 24; // the longest message that the library's sha256 takes
const NO_NODE = new Uint8Array(32), NO_STRING = new Uint8Array(64);

const hex = (bytes) => Buffer.from(bytes).toString("hex");
const sha256 = (bytes) => createHash("sha256").update(bytes).digest();

// The SHA-256 by which a line shows bytes; of more than PART, that of the SHA-256s of their parts.
function digest(bytes) {
  if (bytes.length <= PART) return sha256(bytes);
  const starts = Array.from({ length: Math.ceil(bytes.length / PART) }, (_, i) => i * PART);
  return digest(Buffer.concat(starts.map((at) => sha256(bytes.subarray(at, at + PART)))));
}

// The code, and what the call answers; something else where it is refused.
function asked(call, otherwise) {
  try {
    return [0, call()];
  } catch (refusal) {
    if (!(refusal instanceof Refusal)) throw refusal;
    return [refusal.code, otherwise];
  }
}

const code = (call) => asked(call)[0];
const shown = (...memory) => memory.filter((each) => each !== undefined).map(digest);

// Pieces of these lengths, as far as the bytes go, and then the rest in one piece.
function pieces(bytes, lengths) {
  const starts = [0];
  for (const length of lengths) starts.push(starts[starts.length - 1] + length);
  return starts.map((start, i) => bytes.subarray(start, starts[i + 1]));
}

// The bytes of a ledger's rows, and zeros after them.
function rowsBytes(rows) {
  const out = Buffer.alloc(ROWS);
  for (const [i, { house, commitment, size, offset, place }] of rows.entries()) {
    out[57 * i] = house;
    out.set(commitment, 57 * i + 1);
    for (const [j, value] of [size, offset, place].entries()) out.writeBigUInt64LE(BigInt(value), 57 * i + 33 + 8 * j);
  }
  return out;
}

// The lines that are read one by one are malformed somewhere exactly where the log is refused with 3, and are the log's
// bytes; the one that playback names does not say what the rules give for it.
function judgeLines(size, log, refused, { line, ruling }) {
  const read = [];
  let end = log.length;
  try {
    for (const each of logLines(size, log)) read.push(each);
  } catch (malformed) {
    if (!(malformed instanceof Malformed)) throw malformed;
    end = malformed.at;
  }
  const said = ({ code, offset = 0, place, kind }) =>
    [code, ...(kind === "cancelling" ? [0, 0] : [offset, place])].join();
  const wrong = ruling && said(read[line - 1]) === said(ruling);
  if (wrong || !Buffer.concat(read.map(logLine.encode)).equals(log.subarray(0, end)) ||
      (end < log.length) !== (refused === Refusal.FORM)) {
    throw new Error(`playback answers ${refused} and line ${line}; ${read.length} lines are read up to byte ${end}`);
  }
}

function answersOf(vz) {
  const entry = ({ commitment, offset, size }) => [commitment, offset, size];
  const booked = ({ a, b, d, y }, tree) => {
    const [refused, booking] = asked(() => vz.book(a, d, y, b, { tree }),
      { kind: "", position: { offset: 0, place: 0 } });
    const { offset, place } = booking.position;
    return [booking.kind === "alreadyKept" ? Refusal.ALREADY_KEPT : refused, offset, place, ...shown(a, tree, d)];
  };
  const cancelled = ({ a, d, x, y }, tree) => [code(() => vz.cancel(a, d, y, x, { tree })), ...shown(a, tree, d)];
  const collected = ({ a, b, d, e }, tree) => [code(() => vz.collect(a, d, b, e, { tree })), ...shown(b, tree, e)];
  const built = ({ a, b, x, y }, tree) => [...asked(() => vz.buildInto(a, y, x, b, { tree }), 0), digest(b)];
  const settled = (call) => {
    const [refused, { kind, left = NO_STRING, right = NO_STRING }] = asked(call, { kind: "refused" });
    return [kind === "collision" ? Refusal.COLLISION : refused, left, right];
  };
  return {
    1: ({ a }) => asked(() => vz.sha256(a), NO_NODE),
    2: ({ a }) => asked(() => vz.commitment(a), NO_NODE),
    3({ x }) {
      const [refused, { entries, start }] = asked(() => vz.indexNumbers(x), { entries: 0, start: 0 });
      return [refused, entries, start];
    },
    4: ({ a, x, y }) => asked(() => vz.makeEntry(a, x, y), NO_STRING),
    5({ a }) {
      const [refused, read] = asked(() => vz.readEntry(a), { kind: "blank" });
      const said = read.entry ?? { commitment: NO_NODE, offset: 0, size: 0 };
      return [refused, ["blank", "damaged", "valid"].indexOf(read.kind), ...entry(said)];
    },
    6({ a, b }) {
      const [refused, found] = asked(() => vz.find(a, b), { offset: 0, size: 0, place: 0, segment: new Uint8Array(0) });
      return [refused, found.offset, found.size, found.place, found.segment.length, digest(found.segment)];
    },
    7: (lent) => booked(lent),
    8: (lent) => built(lent),
    9: ({ a, b, x, y }) => [code(() => vz.check(b, x, y, a))],
    10: ({ a, b, c, x, y }) => settled(() => vz.settleRecords(c, x, y, a, b)),
    11: ({ a, b, y }) => settled(() => vz.settleWithDeal(a, y, b)),
    12({ a }) {
      const read = [...vz.fields(a)];
      return [
        0, ...read.flatMap(({ tag, start, content, next }) => [tag, start, content.length, next]),
        read.at(-1)?.next ?? 0,
      ];
    },
    14: ({ a, b }) => [code(() => vz.auditInto(a, b)), digest(b)],
    16({ a, b }) {
      let state = vz.streaming().state, answer;
      const codes = [];
      for (const piece of pieces(a, b)) {
        const stream = vz.streaming(state);
        codes.push(code(() => stream.take(piece)));
        answer = asked(() => stream.end(), { commitment: NO_NODE, count: 0 });
        state = stream.state;
      }
      return [answer[0], answer[1].commitment, answer[1].count, ...codes];
    },
    17: ({ a, b }) => [...asked(() => vz.padInto(a, b), 0), digest(b)],
    18: ({ a, b, x }) => [...asked(() => vz.unpadInto(x, a, b), 0), digest(b)],
    19({ a }) {
      const [refused, { blank, damaged, valid }] = asked(() => vz.tally(a), { blank: 0, damaged: 0, valid: 0 });
      return [refused, blank, damaged, valid];
    },
    20: ({ a, c }) => [code(() => vz.treeFill(a, c)), digest(c)],
    21: (lent) => booked(lent, lent.c),
    22: (lent) => built(lent, lent.c),
    23: ({ a, b, c, y }) => settled(() => vz.settleWithDeal(a, y, b, { tree: c })),
    24: (lent) => cancelled(lent),
    25: (lent) => cancelled(lent, lent.c),
    26: (lent) => collected(lent),
    27: (lent) => collected(lent, lent.c),
    28: ({ a, b }) => [code(() => vz.treeRow(a, b)), digest(b)],
    29({ a, x }) {
      const [refused, played] = asked(() => vz.playback(x, a), { kind: "refused" });
      if (refused !== Refusal.SIZE) judgeLines(x, a, refused, played);
      const { line, ruling = { code: 0, offset: 0, place: 0 }, rows = [] } = played;
      const said = played.kind === "wrongLine" ? [1, line] : [0, refused];
      return [...said, ruling.code, ruling.offset, ruling.place, rows.length, digest(rowsBytes(rows))];
    },
  };
}

// The arguments that an operation writes.
const WRITTEN = {
  7: "ad", 8: "b", 14: "b", 17: "b", 18: "b", 20: "c", 21: "acd", 22: "b", 24: "ad", 25: "acd", 26: "be", 27: "bce",
  28: "b",
};

/** Each case: its operation, and what lends its arguments. What is read is a part of the input itself, what is written
 * a copy. */
function* cases(input) {
  let at = 0;
  while (at < input.length) {
    const numbers = Array.from({ length: 8 }, (_, i) => input.readBigUInt64LE(at + 8 * i));
    const operation = Number(numbers[0]), memory = [];
    at += 64;
    for (const [i, name] of [..."abcde"].entries()) {
      const bytes = new Uint8Array(input.buffer, input.byteOffset + at, Number(numbers[i + 1]));
      memory.push([name, bytes, (WRITTEN[operation] ?? "").includes(name)]);
      at += bytes.length;
    }
    const lent = memory.map(([name, bytes, written]) => [name, () => (written ? bytes.slice() : bytes)]);
    yield [operation, () => ({
      x: numbers[6], y: numbers[7], ...Object.fromEntries(lent.map(([name, bytes]) => [name, bytes()])),
    })];
  }
}

const shownLine = (parts) => parts.map((part) => (part instanceof Uint8Array ? hex(part) : String(part))).join(" ");

const files = process.argv.slice(2), watch = watched();
const libraries = await Promise.all(files.map(async (file) => answersOf(await load(readFileSync(file)))));
const input = readFileSync(0), before = Buffer.from(input);
const lines = [];
for (const [operation, lend] of cases(input)) {
  const said = libraries.map((answers) => shownLine(answers[operation](lend())));
  const other = said.findIndex((line) => line !== said[0]);
  if (other > 0) {
    process.stderr.write(`${files[0]}: ${said[0]}\n${files[other]}: ${said[other]}\n`);
    process.exitCode = 1;
    break;
  }
  lines.push(said[0]);
}
process.stdout.write(lines.map((line) => `${line}\n`).join(""));
if (!input.equals(before)) throw new Error("replay_node: an input was changed");
watch.judge();
