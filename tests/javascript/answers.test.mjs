// Answers that the differential test does not ask for: kinds, streams, raw archives by parts, texts, and a deal of
// 16 MiB from end to end.
import assert from "node:assert/strict";
import { execFileSync } from "node:child_process";
import { test } from "node:test";
import { fileURLToPath } from "node:url";
import * as module from "../../javascript/vizhuthamen.mjs";
import { MODULES, nodes, refused, ROOT, text as fileText } from "./common.mjs";

const { Malformed, MAX_DEAL, MAX_RAW, MAX_RAW_STREAM, NotAPieceCid, RAW_PART, Refusal } = module;
const { cid, hex, line, lines, load, segmentLength, tableLength, treeLength } = module;
const libraries = await Promise.all(MODULES.map(load));
const vz = libraries[0];

test("two houses book, cancel and collect", () => {
  const deal = new Uint8Array(1024), table = new Uint8Array(tableLength(1024));
  for (const [house, byte, place] of [[1, 1, 768], [2, 1, 832], [1, 2, 896]]) {
    const booking = vz.book(deal, table, house, new Uint8Array(128).fill(byte));
    assert.deepEqual(booking, { kind: "booked", position: { offset: place * 2 - 1536, place } });
  }
  assert.deepEqual(vz.book(deal, table, 2, new Uint8Array(128).fill(1)),
    { kind: "alreadyKept", position: { offset: 128, place: 832 } });
  refused(Refusal.QUOTA, () => vz.book(deal, table, 1, new Uint8Array(1)));
  refused(Refusal.NOT_KEPT, () => vz.cancel(deal, table, 2, 768));
  assert.equal(vz.cancel(deal, table, 1, 768), undefined);
  assert.deepEqual([...table], [0, 2, 1, 0]);
  const second = new Uint8Array(1024), owners = new Uint8Array(4);
  vz.collect(deal, table, second, owners);
  assert.deepEqual([...owners], [2, 1, 0, 0]);
  assert.deepEqual(vz.audit(second), ["kept", "kept", "blank", "blank"]);
  deal[128] ^= 1;
  assert.deepEqual(vz.audit(deal), ["blank", "wrong commitment", "kept", "blank"]);
  assert.deepEqual(vz.tally(deal), { blank: 2, damaged: 0, valid: 2 });
});

/** What a call answers, or the refusal that it throws. */
function answered(call) {
  try {
    return call();
  } catch (refusal) {
    assert.ok(refusal instanceof Refusal);
    return refusal;
  }
}

test("the log of a day", () => {
  const deal = new Uint8Array(512), table = new Uint8Array(4), made = [];
  for (const [house, length, byte] of [[1, 128, 1], [1, 128, 1], [2, 100, 1], [1, 1, 2], [3, 1, 2], [1, 0, 0]]) {
    const segment = new Uint8Array(length).fill(byte), area = new Uint8Array(128);
    area.set(segment);
    made.push(line.booking(house, vz.commitment(area), length, answered(() => vz.book(deal, table, house, segment))));
  }
  for (const [house, place] of [[2, 256], [1, 256], [1, 300], [0, 256]]) {
    made.push(line.cancelling(house, place, answered(() => vz.cancel(deal, table, house, place))));
  }
  assert.deepEqual(made.map((each) => each?.code), [0, 15, 0, 14, undefined, undefined, 16, 0, undefined, undefined]);
  const kept = made.filter(Boolean), log = Buffer.concat(kept.map(line.encode));
  assert.equal(log.length, 4 * 61 + 2 * 13);
  assert.deepEqual([...lines(512, log)], kept);
  assert.deepEqual([...lines(512n, new Uint8Array(log))], kept);
  const rows = [{ house: 2, commitment: deal.slice(320, 352), size: 100, offset: 128, place: 320 }];
  for (const each of libraries) assert.deepEqual(each.playback(512, log), { kind: "confirmed", rows });
  const twice = Buffer.concat([...kept.slice(0, 3), kept[2]].map(line.encode));
  assert.deepEqual(vz.playback(512n, twice),
    { kind: "wrongLine", line: 4, ruling: { code: 15, offset: 128, place: 320 } });
  assert.deepEqual(vz.playback(MAX_DEAL, new Uint8Array(0)), { kind: "confirmed", rows: [] });
  refused(Refusal.FORM, () => vz.playback(512, log.subarray(1)));
  refused(Refusal.SIZE, () => vz.playback(511, log.subarray(1)));
  assert.throws(() => vz.playback(2n ** 64n, log), RangeError);
});

test("a line there and back, with numbers of 64 bits", () => {
  const numbers = { size: 2n ** 63n - 1n, offset: 2n ** 64n - 1n, place: 0x0102030405060708n };
  const booking = { kind: "booking", house: 2, commitment: nodes(32), code: 22, ...numbers };
  const cancelling = { kind: "cancelling", house: 1, place: numbers.place, code: 16 };
  const log = Buffer.concat([booking, cancelling].map(line.encode));
  assert.deepEqual([...lines(2n ** 64n - 1n, log)], [booking, cancelling]);
  assert.equal(log.subarray(61).toString("hex"), "020a0001080706050403020110");
  for (const other of [{ house: 256 }, { code: -1 }, { place: 2n ** 64n }]) {
    assert.throws(() => line.encode({ ...cancelling, ...other }), RangeError);
  }
  refused(Refusal.COMMITMENT_LENGTH, () => line.encode({ ...booking, commitment: nodes(64) }));
  assert.throws(() => lines(512, "text"), TypeError);
});

test("where a log is malformed, in the words of the Rust crate", () => {
  const first = line.encode({ kind: "cancelling", house: 2, place: 1792, code: 16 });
  const second = line.encode(
    { kind: "booking", house: 1, commitment: nodes(32), size: 300, code: 0, offset: 512, place: 1792 });
  const changed = (at, ...bytes) => {
    const other = Buffer.from(second);
    other.set(bytes, at);
    return Buffer.concat([first, other, first]);
  };
  for (const [log, words] of [
    [changed(0, 3), "line 2, at byte 13: tag 3 is neither 1 nor 2"],
    [changed(0, 2), "line 2, at byte 13: 58 bytes are not the length of its tag"],
    [changed(2, 1), "line 2, at byte 13: 314 bytes are not the length of its tag"],
    [changed(3, 0), "line 2, at byte 13: house 0 is neither 1 nor 2"],
    [changed(36, 1, 8), "line 2, at byte 13: segment size 2049 is not allowed for the deal's"],
    [changed(36, 0, 0), "line 2, at byte 13: segment size 0 is not allowed for the deal's"],
    [changed(44, 16), "line 2, at byte 13: code 16 is none that gets a line"],
    [changed(0).subarray(0, 73), "line 2, at byte 13: the log ends within it"],
    [changed(0).subarray(0, 14), "line 2, at byte 13: the log ends within it"],
    [Buffer.concat([changed(0), Buffer.of(9)]), "line 4, at byte 87: tag 9 is neither 1 nor 2"],
  ]) {
    assert.throws(() => [...lines(4096, log)], (error) => error instanceof Malformed && error.message === words, words);
    assert.ok(fileText("rust/src/log.rs").includes(`"${words}"`), words);
    refused(Refusal.FORM, () => vz.playback(4096, log));
  }
  assert.equal([...lines(4096, changed(0))].length, 3);
});

test("lengths", () => {
  for (let size = 512; size <= MAX_DEAL; size *= 2) assert.equal(tableLength(size), vz.indexNumbers(size).entries);
  assert.deepEqual(vz.indexNumbers(2 ** 36), { entries: 524288, start: 68685922304 });
  assert.deepEqual([treeLength(512), treeLength(0), treeLength(512n)], [480, 0, 480]);
  assert.deepEqual([0, 1, 127, 128, MAX_RAW, MAX_RAW + 1].map(segmentLength),
    [undefined, 2, 128, 130, 2 ** 23, undefined]);
  for (const length of [tableLength, treeLength, segmentLength]) {
    assert.throws(() => length("512"), TypeError);
    assert.throws(() => length(-1), RangeError);
  }
});

test("a refusal says its code", () => {
  const refusal = new Refusal(Refusal.NO_PLACE);
  const { name, code, meaning, message } = refusal;
  assert.deepEqual([name, code, meaning, message], ["Refusal", 14, "no free place", "code 14: no free place"]);
  assert.ok(refusal instanceof Error);
  refused(Refusal.COMMITMENT_LENGTH, () => vz.check(new Uint8Array(31), 512, 9n, new Uint8Array(0)));
});

test("a deal of 16 MiB from end to end, by either module", () => {
  const answers = libraries.map((each) => {
    const deal = nodes(MAX_DEAL - 8192), whole = new Uint8Array(MAX_DEAL);
    const table = new Uint8Array(128), number = 2n ** 64n - 1n;
    whole.set(deal);
    const tree = each.filledTree(whole), commitment = each.commitment(whole);
    assert.deepEqual(tree.slice(-32), commitment);
    const { position } = each.book(whole, table, 2, nodes(2 ** 22, 9), { tree });
    const record = each.build(whole, number, position.place), after = each.commitment(whole);
    assert.deepEqual(each.build(whole, number, position.place, { tree }), record);
    each.check(after, MAX_DEAL, number, record);
    refused(Refusal.DEAL_NUMBER, () => each.check(after, MAX_DEAL, number - 1n, record));
    refused(Refusal.SEGMENT_PATH, () => each.check(commitment, MAX_DEAL, number, record));
    assert.deepEqual(each.settleWithDeal(whole, number, record), { kind: "same" });
    assert.deepEqual(each.settleWithDeal(whole, number, record, { tree }), { kind: "same" });
    assert.deepEqual(each.find(whole, each.commitment(nodes(2 ** 22, 9))).segment, nodes(2 ** 22, 9));
    assert.equal(each.audit(whole).filter((state) => state === "kept").length, 1);
    whole[MAX_DEAL - 1] = 0x80;
    refused(Refusal.STRAY_BITS, () => each.commitment(whole));
    return record;
  });
  assert.deepEqual(answers[0], answers[1]);
});

test("a tree is what is looked at", () => {
  const deal = new Uint8Array(1024), table = new Uint8Array(4), { position } = vz.book(deal, table, 1, nodes(128));
  const record = vz.build(deal, 7n, position.place), tree = vz.filledTree(deal);
  tree[tree.length - 64] ^= 1; // a sibling below the root
  const other = vz.build(deal, 7n, position.place, { tree });
  assert.notDeepEqual(other, record);
  const settled = vz.settleWithDeal(deal, 7n, record, { tree });
  assert.equal(settled.kind, "collision");
  assert.deepEqual(settled.left.slice(0, 32), settled.right.slice(0, 32));
  assert.deepEqual(settled.right.slice(32), tree.slice(-64, -32)); // the record's string first, then the deal's
  assert.notDeepEqual(settled.left, settled.right);
});

test("a stream goes on from its state", () => {
  const stream = vz.streaming();
  stream.take(nodes(128).subarray(0, 50));
  refused(Refusal.SIZE, () => stream.end());
  const kept = stream.state, later = vz.streaming(kept);
  kept.fill(0); // a copy
  stream.take(nodes(128).subarray(50));
  assert.equal(stream.end().count, 128);
  later.take(nodes(128).subarray(50));
  assert.deepEqual(later.end(), { commitment: vz.commitment(nodes(128)), count: 128 });
  refused(Refusal.STRAY_BITS, () => later.take(new Uint8Array(32).fill(255)));
  refused(Refusal.STRAY_BITS, () => later.end());
  refused(Refusal.OUTPUT, () => vz.streaming(new Uint8Array(1071)));
});

/** The commitment of a raw archive whose segment can be held: padded in pieces, filled with zeros, and asked. */
function held(raw) {
  const pieces = [];
  for (let at = 0; at < raw.length; at += MAX_RAW) pieces.push(vz.pad(raw.subarray(at, at + MAX_RAW)));
  const segment = Buffer.concat(pieces);
  let area = 128;
  while (area < segment.length) area *= 2;
  return { commitment: vz.commitment(Buffer.concat([segment], area)), size: segment.length, area };
}

test("a raw archive by parts", () => {
  const raw = nodes(MAX_RAW + RAW_PART, 4);
  for (const length of [1, 127, 128, 1000, RAW_PART - 1, RAW_PART, RAW_PART + 1, 3 * RAW_PART, MAX_RAW + 1]) {
    assert.deepEqual(vz.rawStreaming().end(raw.subarray(0, length)), held(raw.subarray(0, length)), `${length}`);
  }
  const stream = vz.rawStreaming();
  stream.take(raw.subarray(0, 2 * RAW_PART));
  const later = vz.rawStreaming(stream.state, stream.taken);
  later.take(raw.subarray(2 * RAW_PART, 3 * RAW_PART));
  assert.deepEqual(later.end(raw.subarray(3 * RAW_PART, 3 * RAW_PART + 5)), held(raw.subarray(0, 3 * RAW_PART + 5)));
  assert.deepEqual(later.end(), held(raw.subarray(0, 3 * RAW_PART)));
  refused(Refusal.SIZE, () => later.take(raw.subarray(0, RAW_PART + 1)));
  refused(Refusal.SIZE, () => vz.rawStreaming().end());
  for (const taken of [1, RAW_PART + 1, -RAW_PART, MAX_RAW_STREAM + RAW_PART]) {
    assert.throws(() => vz.rawStreaming(stream.state, taken), RangeError);
  }
});

/** The commitment of 2^height zero bytes. */
function zeros(height) {
  let node = new Uint8Array(32);
  for (let i = 5; i < height; i++) node = vz.commitment(Buffer.concat([node, node]));
  return node;
}

/** A raw archive of so many parts of zeros. */
function parts(count) {
  const stream = vz.streaming(), row = Buffer.concat(Array(2 ** 13).fill(zeros(18)));
  for (let left = count; left > 0; left -= 2 ** 13) stream.take(row.subarray(0, 32 * Math.min(left, 2 ** 13)));
  return vz.rawStreaming(stream.state, count * RAW_PART);
}

test("the longest raw archives, of zeros", () => {
  assert.equal(2 ** 18 * RAW_PART, MAX_RAW_STREAM);
  const byte = new Uint8Array(1);
  for (const [archive, rest, size, height] of [
    [parts(2 ** 17), undefined, 2 ** 35, 35], [parts(2 ** 17), byte, 2 ** 35 + 2, 36],
    [parts(2 ** 18 - 1), byte, 2 ** 36 - 2 ** 18 + 2, 36], [parts(2 ** 18), undefined, 2 ** 36, 36]]) {
    assert.deepEqual(archive.end(rest), { commitment: zeros(height), size, area: 2 ** height });
  }
  refused(Refusal.SIZE, () => parts(2 ** 18).end(byte));
  refused(Refusal.SIZE, () => parts(2 ** 18).take(new Uint8Array(RAW_PART)));
});

test("lengths of raw archives", () => {
  for (const length of [0, MAX_RAW + 1, 2 ** 53 - 1, 2n ** 64n - 1n]) {
    refused(Refusal.SIZE, () => vz.unpad(length, new Uint8Array(64)));
  }
  refused(Refusal.SIZE, () => vz.pad(new Uint8Array(0)));
  refused(Refusal.SIZE, () => vz.pad(new Uint8Array(MAX_RAW + 1)));
  for (const length of [1, 127, 1000]) assert.deepEqual(vz.unpad(length, vz.pad(nodes(length))), nodes(length));
});

test("hex there and back", () => {
  const all = Uint8Array.from({ length: 256 }, (_, i) => i);
  assert.deepEqual(hex.decode(hex.encode(all)), all);
  assert.deepEqual([hex.encode(Uint8Array.of(0, 1, 0xab, 0xff)), hex.decode("ABff")],
    ["0001abff", Uint8Array.of(0xab, 0xff)]);
  for (const text of ["0", "0g", "+1", " 0", "0x", "ab ", "\u00e9", "a\u00e9b", "ab\n"]) {
    assert.equal(hex.decode(text), undefined);
  }
  assert.throws(() => hex.decode(12), TypeError);
});

const ZEROS = "baga6ea4seaqdomn3tgwgrh3g532zopskstnbrd2n3sxfqbze7rxt7vqn7veigmy";

test("a piece CID there and back", () => {
  assert.equal(cid.encode(vz.commitment(new Uint8Array(128))), ZEROS);
  for (let seed = 0; seed < 100; seed++) {
    const node = nodes(32, seed);
    assert.deepEqual(cid.decode(cid.encode(node)), node);
    assert.equal(cid.encode(node).length, 64);
  }
  refused(Refusal.COMMITMENT_LENGTH, () => cid.encode(new Uint8Array(31)));
  assert.throws(() => cid.decode(7), TypeError);
});

/** The text of any bytes in base32. */
function base32(bytes) {
  const bits = [...bytes].map((byte) => byte.toString(2).padStart(8, "0")).join("");
  return "b" + bits.match(/.{1,5}/g)
    .map((five) => "abcdefghijklmnopqrstuvwxyz234567"[parseInt(five.padEnd(5, "0"), 2)]).join("");
}

test("what is no piece CID, in the words of the command line", () => {
  const head = [1, 0x81, 0xe2, 3, 0x92, 0x20, 32], sevens = (count) => Array(count).fill(7);
  const texts = ["z", ZEROS.slice(1), ZEROS.toUpperCase(), ZEROS.replace("g", "G"), `${ZEROS} `, "b\u00e9", "b",
    `${ZEROS.slice(0, 63)}z`, `${ZEROS}a`, `${ZEROS}aa`, ZEROS.slice(0, 30), ZEROS.slice(0, 63)];
  const bytes = [[0, ...head.slice(1), ...sevens(32)], [1, 0x55, 0x12, 32, ...sevens(32)],
    [1, 0x81, 0xe2, 3, 0x12, 32, ...sevens(32)], [...head.slice(0, 6), 20, ...sevens(20)],
    [...head, ...sevens(31)], [...head, ...sevens(33)],
    [0x81, 0, ...head.slice(1), ...sevens(32)], Array(9).fill(0xff), [1, 0x81, 0xe2]];
  for (const text of [...texts, ...bytes.map(base32)]) {
    const words = said(text);
    assert.throws(() => cid.decode(text),
      (error) => error instanceof NotAPieceCid && words.includes(error.message), `${text}: ${words}`);
  }
});

/** What the command line says of a commitment. */
function said(text) {
  const program = fileURLToPath(new URL("target/cli/release/vizhuthamen", ROOT));
  try {
    return execFileSync(program, ["check", text, "512", "/dev/null", "--number", "1"],
      { encoding: "utf8", stdio: "pipe" });
  } catch (error) {
    return error.stderr;
  }
}
