// A program that TypeScript accepts by javascript/vizhuthamen.d.mts, and lines that it must not accept.
import {
  cid, hex, line, lines, load, MAX_RECORD, meaning, Refusal, SLOT_STATES, tableLength,
} from "../../javascript/vizhuthamen.mjs";
import type {
  Booking, Field, ReadEntry, Settled, SlotState, Streaming, Vizhuthamen,
} from "../../javascript/vizhuthamen.mjs";
import type { Line, Playback } from "../../javascript/vizhuthamen.mjs";

const vz: Vizhuthamen = await load(fetch("vizhuthamen.wasm"));
const deal = new Uint8Array(512), table = new Uint8Array(tableLength(512));
const booking: Booking = vz.book(deal, table, 1, new Uint8Array(128), { tree: vz.filledTree(deal) });
const place: number = booking.position.place;
const record: Uint8Array = vz.build(deal, 2026n, place);
const settled: Settled = vz.settleRecords(vz.commitment(deal), 512n, 2026, record, record);
const pair: Uint8Array[] = settled.kind === "collision" ? [settled.left, settled.right] : [];
const read: ReadEntry = vz.readEntry(vz.makeEntry(new Uint8Array(32), 0, 1n));
const offset: bigint = read.kind === "valid" ? read.entry.offset : 0n;
const states: SlotState[] = vz.audit(deal);
const fields: Field[] = [...vz.fields(record)];
const made: Line | undefined = line.booking(1, vz.commitment(new Uint8Array(128)), 128, booking);
const log: Uint8Array = made ? line.encode(made) : new Uint8Array(0);
const played: Playback = vz.playback(512, log);
const left: number = played.kind === "confirmed" ? played.rows.length : played.ruling.code;
for (const each of lines(512n, log)) if (each.kind === "booking") console.log(each.size / 2n, left);
const stream: Streaming = vz.streaming();
stream.take(hex.decode("00") ?? cid.decode("b"));
try {
  vz.check(stream.end().commitment, 512, 2026n, record);
} catch (error) {
  if (error instanceof Refusal && error.code === Refusal.DEAL_NUMBER) console.log(error.meaning, meaning(21));
}
console.log(pair, offset, states, fields, MAX_RECORD, SLOT_STATES.indexOf("kept"), vz.rawStreaming().end(record).area);

// @ts-expect-error: bytes are no text
vz.sha256("abc");
// @ts-expect-error: a deal's number is no text
vz.build(deal, "2026", place);
// @ts-expect-error: only a collision has strings
console.log(settled.left);
// @ts-expect-error: only a wrong line has a number
console.log(played.line);
// @ts-expect-error: no such function
vz.inspect(deal, place);
