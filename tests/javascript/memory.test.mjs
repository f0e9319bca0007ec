// What is lent: memory that stays with a refusal, that overlaps, that is of another kind; numbers; and the module's own
// memory.
import assert from "node:assert/strict";
import { test } from "node:test";
import vm from "node:vm";
import { line, load, MAX_DEAL, Refusal, tableLength } from "../../javascript/vizhuthamen.mjs";
import { MODULES, nodes, refused, watchedLoad } from "./common.mjs";

const vz = await load(MODULES[1]);
const bytes = (length) => new Uint8Array(length);

/** A deal of 1,024 bytes with a segment of each house, with its table and tree. */
function booked() {
  const deal = bytes(1024), table = bytes(4);
  for (const house of [1, 2]) vz.book(deal, table, house, nodes(128, house));
  return { deal, table, tree: vz.filledTree(deal) };
}

const { deal, table, tree } = booked();
const commitment = vz.commitment(deal);
const record = vz.build(deal, 7n, 768);
const segment = nodes(128, 3);
const padded = vz.pad(bytes(100).fill(9));

// Every function with arguments that are accepted.
const CALLS = {
  sha256: () => [segment],
  commitment: () => [segment],
  indexNumbers: () => [512],
  makeEntry: () => [commitment, 0, 128],
  readEntry: () => [deal.slice(768, 832)],
  audit: () => [deal],
  auditInto: () => [deal, bytes(4)],
  tally: () => [deal],
  find: () => [deal, deal.slice(768, 800)],
  book: () => [deal.slice(), table.slice(), 1, segment],
  cancel: () => [deal.slice(), table.slice(), 1, 768],
  collect: () => [deal, table, bytes(1024), bytes(4)],
  playback: () => [1024, line.encode({ kind: "cancelling", house: 1, place: 768, code: 16 })],
  buildInto: () => [deal, 7n, 768, bytes(500)],
  build: () => [deal, 7n, 768],
  check: () => [commitment, 1024, 7n, record],
  settleRecords: () => [commitment, 1024, 7n, record, record],
  settleWithDeal: () => [deal, 7n, record],
  readField: () => [record, 0],
  fields: () => [record],
  padInto: () => [bytes(100), bytes(200)],
  pad: () => [bytes(100)],
  unpadInto: () => [100, padded, bytes(100)],
  unpad: () => [100, padded],
  treeFill: () => [deal, bytes(992)],
  treeRow: () => [deal, bytes(512)],
  filledTree: () => [deal],
  streaming: () => [bytes(1072)],
  rawStreaming: () => [bytes(1072)],
};
const asked = (name, given) => (name === "fields" ? [...vz.fields(...given)] : vz[name](...given));

test("every function is among the calls, and none is refused", () => {
  assert.deepEqual(Object.keys(CALLS).sort(), Object.keys(vz).sort());
  for (const [name, given] of Object.entries(CALLS)) asked(name, given());
});

test("memory of another kind is a TypeError, and changes nothing", () => {
  const others = [null, "text", 7, {}, [1, 2], segment.buffer, new Uint16Array(64), new Int8Array(128),
    new DataView(segment.buffer)];
  for (const [name, given] of Object.entries(CALLS)) {
    const at = given().flatMap((value, i) => (value instanceof Uint8Array ? [i] : []));
    for (const i of at) {
      for (const other of [...others, ...(["streaming", "rawStreaming"].includes(name) ? [] : [undefined])]) {
        const lent = given(), before = structuredClone(lent);
        lent[i] = before[i] = other;
        assert.throws(() => asked(name, lent), TypeError, `${name}, argument ${i}: ${other}`);
        assert.deepEqual(lent, before);
      }
    }
  }
  for (const other of others) {
    assert.throws(() => vz.book(deal.slice(), table.slice(), 1, segment, { tree: other }), TypeError);
  }
});

test("numbers that are none, or have too many bits", () => {
  for (const [name, given] of Object.entries(CALLS)) {
    for (const [i, value] of given().entries()) {
      if (value instanceof Uint8Array) continue;
      const wrong = (other, kind) => {
        const lent = given();
        lent[i] = other;
        assert.throws(() => asked(name, lent), kind, `${name}, argument ${i}: ${String(other)}`);
      };
      for (const other of [undefined, null, "7", {}, true, segment]) wrong(other, TypeError);
      for (const other of [-1, 1.5, NaN, Infinity, 2 ** 53, -1n, 2n ** 64n]) wrong(other, RangeError);
    }
  }
  for (const house of [256, 257, 2n ** 63n]) {
    assert.throws(() => vz.book(deal.slice(), table.slice(), house, segment), RangeError);
  }
  refused(Refusal.SIZE, () => vz.indexNumbers(2n ** 64n - 1n));
  refused(Refusal.PLACE, () => vz.cancel(deal.slice(), table.slice(), 1, 2n ** 64n - 64n));
  refused(Refusal.HOUSE, () => vz.book(deal.slice(), table.slice(), 255, segment));
});

test("a number and a BigInt are the same number", () => {
  assert.deepEqual(vz.build(deal, 7, 768n), record);
  assert.deepEqual(vz.makeEntry(commitment, 2 ** 53 - 1, 1n), vz.makeEntry(commitment, BigInt(2 ** 53 - 1), 1));
  assert.deepEqual(vz.readEntry(vz.makeEntry(commitment, 2n ** 64n - 1n, 5)).entry,
    { commitment, offset: 2n ** 64n - 1n, size: 5n });
});

// Calls that are refused, with the memory that they are lent to write.
const { deal: full, table: owners, tree: nodesAbove } = booked();
vz.book(full, owners, 1, nodes(128, 5), { tree: nodesAbove });
const REFUSED = [
  [Refusal.QUOTA, [full, owners], () => vz.book(full, owners, 1, segment)],
  [Refusal.QUOTA, [full, nodesAbove, owners], () => vz.book(full, owners, 1, segment, { tree: nodesAbove })],
  [Refusal.HOUSE, [full, owners], () => vz.book(full, owners, 3, segment)],
  [Refusal.NOT_KEPT, [full, owners], () => vz.cancel(full, owners, 2, 768)],
  [Refusal.OUTPUT, [full, owners, nodesAbove], () => vz.cancel(full, owners, 1, 768, { tree: nodesAbove.subarray(1) })],
  [Refusal.PLACE, [nodesAbove], () => vz.buildInto(full, 7n, 0, nodesAbove)],
  [Refusal.OUTPUT, [owners], () => vz.buildInto(full, 7n, 768, owners)],
  [Refusal.HOUSE, [nodesAbove, owners], () => vz.collect(full, table.subarray(1), nodesAbove, owners)],
  [Refusal.OUTPUT, [nodesAbove, owners], () => vz.collect(full, table, nodesAbove, owners)],
  [Refusal.OUTPUT, [nodesAbove], () => vz.treeFill(full, nodesAbove.subarray(32))],
  [Refusal.OUTPUT, [nodesAbove], () => vz.treeRow(full, nodesAbove)],
  [Refusal.OUTPUT, [owners], () => vz.padInto(segment, owners)],
  [Refusal.SEGMENT_LENGTH, [owners], () => vz.unpadInto(100, segment, owners)],
  [Refusal.OUTPUT, [owners], () => vz.auditInto(full, owners.subarray(1))],
];

test("a refusal changes no memory", () => {
  for (const [code, memory, call] of REFUSED) {
    const before = structuredClone(memory);
    refused(code, call);
    assert.deepEqual(memory, before, `${call}`);
  }
});

test("what is written overlaps no other argument", () => {
  const one = booked(), whole = one.deal.slice(), view = (from, to) => one.deal.subarray(from, to);
  for (const call of [
    () => vz.book(one.deal, one.table, 1, view(0, 128)), () => vz.book(one.deal, view(1020), 1, segment),
    () => vz.cancel(one.deal, view(0, 4), 1, 768), () => vz.collect(one.deal, one.table, one.deal, bytes(4)),
    () => vz.collect(one.deal, one.table, bytes(1024), one.table), () => vz.buildInto(one.deal, 7n, 768, view(0, 500)),
    () => vz.treeFill(one.deal, view(32)), () => vz.treeRow(view(0, 128), view(127, 191)),
    () => vz.padInto(view(0, 100), view(99, 300)), () => vz.auditInto(one.deal, view(1020)),
    () => vz.book(one.deal, one.table, 1, one.tree.subarray(0, 9), { tree: one.tree }),
  ]) assert.throws(call, RangeError);
  assert.deepEqual(one.deal, whole);
  const side = bytes(192);
  vz.treeRow(side.subarray(0, 128), side.subarray(128)); // side by side
  assert.deepEqual(side.slice(128, 160), vz.commitment(bytes(64)));
  vz.treeRow(bytes(0), bytes(0));
  // what is read may be lent twice
  assert.deepEqual(vz.settleRecords(commitment, 1024, 7n, record, record), { kind: "same" });
});

test("every view of bytes is read alike", () => {
  const shifted = new Uint8Array(new ArrayBuffer(deal.length + 3), 3);
  shifted.set(deal);
  const shared = new Uint8Array(new SharedArrayBuffer(deal.length));
  shared.set(deal);
  const foreign = vm.runInNewContext("(length) => new Uint8Array(length)")(deal.length);
  foreign.set(deal);
  for (const lent of [Buffer.from(deal), shifted, shared, foreign]) assert.deepEqual(vz.commitment(lent), commitment);
  vz.book(foreign, table.slice(), 1, segment);
  assert.equal(vz.tally(foreign).valid, 3);
});

test("what is found is a part of the deal", () => {
  const own = deal.slice(), found = vz.find(own, own.slice(832, 864));
  assert.deepEqual(found.segment, nodes(128, 2));
  own[found.offset] ^= 1;
  assert.equal(found.segment[0], own[found.offset]);
});

test("memory grows to the largest call, and never again", async () => {
  const [own, { exports }] = await watchedLoad();
  const large = bytes(MAX_DEAL), owners = bytes(tableLength(MAX_DEAL)), tree = bytes(MAX_DEAL - 32);
  own.collect(large, owners, bytes(MAX_DEAL), bytes(128), { tree });
  const size = exports.memory.buffer.byteLength;
  assert.ok(size < 3 * MAX_DEAL + 2 ** 21, `${size}`);
  for (let i = 0; i < 20000; i++) {
    own.sha256(segment);
    assert.throws(() => own.check(commitment, 512, 0n, record), Refusal);
  }
  own.collect(large, owners, bytes(MAX_DEAL), bytes(128), { tree });
  assert.equal(exports.memory.buffer.byteLength, size);
});

test("a call for which there is no memory is a RangeError, and the next one is answered", async () => {
  const refusing = (exports) => ({
    ...exports,
    memory: { get buffer() { return exports.memory.buffer; }, grow() { throw new RangeError("no"); } },
  });
  const [own] = await watchedLoad(refusing);
  assert.throws(() => own.sha256(bytes(MAX_DEAL)), /no memory for a call that is lent 16777\d\d\d bytes/);
  assert.deepEqual(own.sha256(segment), vz.sha256(segment));
});

test("a call that the engine breaks off leaves the whole stack to the next one", async () => {
  const broken = (exports) => ({
    ...exports,
    vz_commitment(...words) {
      exports.__stack_pointer.value -= 100000n; // as a call that does not return
      if (words[1] === 64n) throw new RangeError("Maximum call stack size exceeded");
      return exports.vz_commitment(...words);
    },
  });
  const [own] = await watchedLoad(broken);
  for (let i = 0; i < 50; i++) assert.throws(() => own.commitment(bytes(64)), RangeError);
  assert.deepEqual(own.commitment(deal), commitment);
});
