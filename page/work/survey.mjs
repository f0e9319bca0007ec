// What a deal has: the state of every slot, the areas of its segments, free room, and stray bits.
import { cid, hex, MAX_DEAL, meaning, Refusal, SLOT_STATES } from "../../javascript/vizhuthamen.mjs";
import { NotUsable } from "./faults.mjs";
import { area, codeOf, same } from "./record.mjs";
import { described, readFile } from "./segments.mjs";
import { shown } from "./texts.mjs";

const ENTRY = 64;
// A deal that is none may have stray bits in every node: so many are told one by one.
const TOLD = 100;
// So many bytes are committed between two words on progress.
const PIECE = 2 ** 20;

/** Reads a deal. */
export async function readDeal(vz, dropped) {
  const deal = await readFile(dropped, shown(dropped.name));
  const code = deal.bytes === undefined ? Refusal.SIZE : codeOf(() => vz.indexNumbers(deal.bytes.length));
  if (code !== 0) {
    throw new NotUsable(`code ${code}: ${meaning(code)}; ${described(deal)}; ` +
      `a deal has a power of two from 512 to ${MAX_DEAL} bytes`);
  }
  return deal;
}

/** The map of a deal. */
export function survey(vz, deal, report) {
  const { entries, start } = vz.indexNumbers(deal.bytes.length);
  report(0.05, "looking for stray bits");
  const stray = strayBits(deal.bytes);
  const slots = readSlots(vz, deal.bytes, entries, start);
  const code = judgeStates(vz, deal.bytes, slots, stray, report);
  const committed = stray.length === 0 ? commit(vz, deal.bytes, report) : undefined;
  const sound = slots.every(({ state }) => state === "blank" || state === "kept");
  return {
    name: deal.name, size: deal.bytes.length, entries, start, slots, sound,
    code,
    meaning: code !== 0
      ? meaning(code)
      : sound ? "every slot is blank or kept" : "some slots are neither blank nor kept",
    counts: SLOT_STATES.map((words) => [words, slots.filter(({ state }) => state === words).length]),
    commitment: committed,
    stray: { count: stray.length, told: stray.slice(0, TOLD).map((bits) => tellStray(bits, slots, start)) },
    regions: regions(slots, start, stray),
    free: freeRoom(slots, start),
  };
}

// The bytes of the deal that have stray bits, and which they are.
function strayBits(bytes) {
  const found = [];
  for (let at = 31; at < bytes.length; at += 32) {
    if (bytes[at] & 0xc0) found.push({ offset: at, bits: bytes[at] & 0xc0 });
  }
  return found;
}

function tellStray({ offset, bits }, slots, start) {
  const within = slots.filter((slot) => covers(slot, offset)).map(({ number }) => number);
  const whose = offset >= start
    ? `in slot ${Math.floor((offset - start) / ENTRY)} of the index`
    : within.length === 0 ? "in no entry's area" : `in the area of slot ${within.join(", ")}`;
  return {
    offset,
    words: `stray bits 0x${bits.toString(16)} at byte ${offset}, node ${Math.floor(offset / 32)}, ${whose}`,
  };
}

function covers({ standing, from, to }, offset) {
  return standing && offset >= from && offset < to;
}

// The slots by their own bytes: what can be read, and whether it stands.
function readSlots(vz, bytes, entries, start) {
  const slots = [];
  for (let number = 0; number < entries; number += 1) {
    const place = start + ENTRY * number;
    const { kind, entry } = vz.readEntry(bytes.subarray(place, place + ENTRY));
    slots.push({
      number, place,
      ...(kind === "valid" ? placed(entry, bytes.length, start, slots) : { state: kind, standing: false }),
    });
  }
  return slots;
}

// A valid entry, where its area lies if it stands, and the lowest slot below with which that overlaps.
function placed({ commitment, offset, size }, length, start, slots) {
  const entry = { commitment: hex.encode(commitment), cid: cid.encode(commitment), offset, size };
  const allowed = size >= 1n && size <= BigInt(length / 2);
  const room = allowed ? area(size) : 0n;
  if (!allowed || offset % room !== 0n || offset + room > BigInt(start)) {
    return { state: "not standing", standing: false, entry };
  }
  const [from, to] = [Number(offset), Number(offset + room)];
  const below = slots.find((slot) => slot.standing && slot.from < to && from < slot.to);
  return { standing: true, entry, from, to, overlaps: below?.number };
}

// Fills in the states: the library's audit, which refuses a deal with stray bits; such a deal's entries are judged one
// by one.
function judgeStates(vz, bytes, slots, stray, report) {
  report(0.1, "auditing");
  const states = stray.length === 0 ? vz.audit(bytes) : undefined;
  for (const slot of slots.filter(({ standing }) => standing)) {
    // The audit does not say of an overlapping entry whether it is kept.
    const judged = states?.[slot.number] ?? "overlapping";
    slot.kept = judged === "overlapping" ? isKept(vz, bytes, slot) : judged === "kept";
    slot.state = slot.overlaps !== undefined ? "overlapping" : slot.kept ? "kept" : "wrong commitment";
  }
  for (const [i, state] of states?.entries() ?? []) slots[i].state = state;
  return states === undefined ? Refusal.STRAY_BITS : 0;
}

function isKept(vz, bytes, slot) {
  let node;
  const code = codeOf(() => (node = vz.commitment(bytes.subarray(slot.from, slot.to))));
  return code === 0 && same(node, hex.decode(slot.entry.commitment));
}

// The commitment by pieces, so that it can be said how far it is.
function commit(vz, bytes, report) {
  const began = performance.now();
  const stream = vz.streaming();
  for (let at = 0; at < bytes.length; at += PIECE) {
    report(0.5 + (0.5 * at) / bytes.length, "hashing the deal");
    stream.take(bytes.subarray(at, at + PIECE));
  }
  const { commitment } = stream.end();
  return { hex: hex.encode(commitment), cid: cid.encode(commitment), milliseconds: performance.now() - began };
}

// The bytes before the index, in order: areas of slots whose entries stand, and free room between them.
function regions(slots, start, stray) {
  const areas = slots.filter(({ standing }) => standing).sort((a, b) => a.from - b.from || a.number - b.number);
  const found = [];
  let free = 0;
  for (const { number, state, from, to } of areas) {
    if (from > free) found.push({ kind: "free", from: free, to: from });
    found.push({ kind: "area", slot: number, state, from, to });
    free = Math.max(free, to);
  }
  if (free < start) found.push({ kind: "free", from: free, to: start });
  found.push({ kind: "index", from: start, to: start + ENTRY * slots.length });
  return found.map((region) =>
    ({ ...region, stray: stray.filter(({ offset }) => offset >= region.from && offset < region.to).length }));
}

// The free bytes before the index, and the largest area that would find a place there.
function freeRoom(slots, start) {
  const taken = slots.filter(({ standing }) => standing).map(({ from, to }) => [from, to]).sort((a, b) => a[0] - b[0]);
  const gaps = [];
  let free = 0;
  for (const [from, to] of [...taken, [start, start]]) {
    if (from > free) gaps.push([free, from]);
    free = Math.max(free, to);
  }
  const fits = (area) => gaps.some(([from, to]) => Math.ceil(from / area) * area + area <= to);
  let largest = 2 ** 23;
  while (largest >= 128 && !fits(largest)) largest /= 2;
  const slotsLeft = slots.filter(({ standing }) => !standing).length;
  return {
    bytes: gaps.reduce((sum, [from, to]) => sum + to - from, 0),
    largest: largest >= 128 ? largest : 0,
    slots: slotsLeft,
  };
}
