// What vizhuthamen.mjs has: verifiable data aggregation (FRC-0058) over the proved module vizhuthamen.wasm. Refusals
// are named by their codes, in the order in which they are judged; each is thrown as a Refusal.

/** The version of the module, and of the library that it is for. */
export const VERSION: string;
/** The largest deal that is lent, in bytes; so too run and message. */
export const MAX_DEAL: number;
/** The longest table of owners, in bytes: that of the largest deal. */
export const MAX_TABLE: number;
/** The length of the longest record that is accepted, and so of the longest that is built. */
export const MAX_RECORD: number;
/** The length of the longest raw archive that is padded in one call, in bytes. Its segment has 2^23. */
export const MAX_RAW: number;
/** The largest number of bytes that a stream takes; so too the size of a deal. */
export const MAX_STREAM: number;
/** The length of a stream's state, in bytes. */
export const STREAM_STATE: number;
/** The bytes of a line of a log for a booking: tag 1, a length of two bytes, and the content of 58. */
export const BOOKING_LINE: number;
/** The bytes of a line of a log for a cancellation: tag 2, a length of two bytes, and the content of 10. */
export const CANCELLING_LINE: number;
/** The bytes of a row of a ledger. */
export const ROW: number;
/** The bytes of the rows of a ledger for the largest deal, which has 128 slots. */
export const ROWS: number;
/** What the library answers where a line's answers are not those that the rules give: a number past all codes. */
export const WRONG_LINE: number;
/** The raw bytes of a part of a raw archive that is taken by parts: 2^11 blocks of 127. */
export const RAW_PART: number;
/** The largest number of raw bytes whose commitment can be worked out. Their segment has 2^36 bytes. */
export const MAX_RAW_STREAM: number;

/** A number that goes in: any of 64 bits, or a number up to 2^53 - 1. Anything else is a RangeError. */
export type Word = number | bigint;

/** What a code means, in words. */
export function meaning(code: number): string;

/** A code other than 0. Every code has its name here. */
export class Refusal extends Error {
  static readonly COMMITMENT_LENGTH: 1;
  static readonly SIZE: 2;
  static readonly FORM: 3;
  static readonly SEGMENT_SIZE: 4;
  static readonly OFFSET: 5;
  static readonly PLACE: 6;
  static readonly PATH_LENGTH: 7;
  static readonly COMMITMENT_BITS: 8;
  static readonly SEGMENT_PATH: 9;
  static readonly ENTRY_PATH: 10;
  static readonly STRAY_BITS: 11;
  static readonly OUTPUT: 12;
  static readonly NO_SLOT: 13;
  static readonly NO_PLACE: 14;
  static readonly ALREADY_KEPT: 15;
  static readonly NOT_KEPT: 16;
  static readonly COLLISION: 17;
  static readonly OTHER_PLACE: 18;
  static readonly PATH_BITS: 19;
  static readonly OVERLAP: 20;
  static readonly DEAL_NUMBER: 21;
  static readonly QUOTA: 22;
  static readonly HOUSE: 23;
  static readonly SEGMENT_LENGTH: 24;
  constructor(code: number);
  /** The number of the code. */
  readonly code: number;
  /** What the code means, in words. */
  readonly meaning: string;
}

/** The number of index entries of a deal, and the byte at which its index area starts. */
export interface IndexNumbers {
  readonly entries: number;
  readonly start: number;
}

/** What an index entry says: the commitment of the segment's area, the byte of the deal at which the segment starts,
 * and its length without the zeros after it. The two numbers are any of 64 bits. */
export interface Entry {
  readonly commitment: Uint8Array;
  readonly offset: bigint;
  readonly size: bigint;
}

/** What 64 bytes of an index say: all are zero; some is not, and the checksum is wrong; the checksum is right. */
export type ReadEntry =
  { readonly kind: "blank" } | { readonly kind: "damaged" } | { readonly kind: "valid"; readonly entry: Entry };

/** The state of a slot: all 64 bytes are zero; some is not, and the checksum is wrong; the checksum is right, but the
 * size or the offset is not allowed in the deal; the entry stands, and overlaps one that stands in a lower slot; it
 * stands, but its commitment is not that of the bytes at its offset; it stands, and its commitment is. Where two apply,
 * the first in this order is given: an overlapping entry may be kept or not. */
export type SlotState = "blank" | "damaged" | "not standing" | "overlapping" | "wrong commitment" | "kept";
/** Every state by its number. */
export const SLOT_STATES: readonly SlotState[];

/** How many slots of an index are of each kind; together they are the number of entries. */
export interface Tally {
  readonly blank: number;
  readonly damaged: number;
  readonly valid: number;
}

/** A segment that was found: where it and its entry start, its length, and its bytes, a part of the lent deal. */
export interface Found {
  readonly offset: number;
  readonly size: number;
  readonly place: number;
  readonly segment: Uint8Array;
}

/** Where a segment and its index entry start. */
export interface Position {
  readonly offset: number;
  readonly place: number;
}

/** The answer of a booking: the segment and its entry were written; or the house has the segment in the deal, which was
 * not changed (code 15), in its lowest such slot. */
export interface Booking {
  readonly kind: "booked" | "alreadyKept";
  readonly position: Position;
}

/** A line of a log, for a booking that was answered 0, 13, 14, 15 or 22: the house, the commitment of the segment's
 * area, the segment's size, and the answers, whose numbers are 0 but with 0 and 15. */
export interface BookingLine {
  readonly kind: "booking";
  readonly house: number;
  readonly commitment: Uint8Array;
  readonly size: bigint;
  readonly code: number;
  readonly offset: bigint;
  readonly place: bigint;
}

/** A line of a log, for a cancellation that was answered 0 or 16: the house, the entry place, and the code. */
export interface CancellingLine {
  readonly kind: "cancelling";
  readonly house: number;
  readonly place: bigint;
  readonly code: number;
}

export type Line = BookingLine | CancellingLine;

/** What the rules give for a line: a code, and for a booking with 0 or 15 the two numbers beside it, which are 0
 * otherwise. */
export interface Answers {
  readonly code: number;
  readonly offset: number;
  readonly place: number;
}

/** A row of a ledger, of a segment that was booked, and not cancelled since. */
export interface LedgerRow {
  readonly house: number;
  readonly commitment: Uint8Array;
  readonly size: number;
  readonly offset: number;
  readonly place: number;
}

/** What playing back a log says: the rules give the answers of every line, and these are the rows after the last one,
 * by rising entry place; or they do not give those of the line with this number, from 1, but these, and give those of
 * every line before it. */
export type Playback =
  | { readonly kind: "confirmed"; readonly rows: readonly LedgerRow[] }
  | { readonly kind: "wrongLine"; readonly line: number; readonly ruling: Answers };

/** The answer of a settling: no string differs; or two different 64-byte strings are shown (code 17), of the first
 * record and the second, or of the record and the deal. They have one node hash, unless a tree that is not the deal's
 * was in hand. */
export type Settled =
  | { readonly kind: "same" }
  | { readonly kind: "collision"; readonly left: Uint8Array; readonly right: Uint8Array };

/** A field of a record: its tag, where its content starts, the content, and the next field's place. */
export interface Field {
  readonly tag: number;
  readonly start: number;
  readonly content: Uint8Array;
  readonly next: number;
}

/** The commitment of all bytes of a stream, and their number. */
export interface Streamed {
  readonly commitment: Uint8Array;
  readonly count: number;
}

/** The commitment of bytes that arrive in pieces. */
export interface Streaming {
  /** Takes one more piece, of any length. Refusals stick until a new start: 11 where a node is completed that has stray
   * bits, 2 at the first byte past 2^36. */
  take(piece: Uint8Array): void;
  /** The answer for all bytes taken so far; more may be taken afterwards. Refusals: 11 where it sticks, 2 where their
   * number is no power of two from 32 to 2^36. */
  end(): Streamed;
  /** The state, a copy of it, of STREAM_STATE bytes: the stream goes on from it wherever it is kept. */
  readonly state: Uint8Array;
}

/** The commitment of a raw archive, the length of its segment, and the bytes that this takes up with the zeros after
 * it. */
export interface RawStreamed {
  readonly commitment: Uint8Array;
  readonly size: number;
  readonly area: number;
}

/** The commitment of a raw archive as its bytes arrive, padded (Fr32) and filled with zeros on the way. */
export interface RawStreaming {
  /** Takes the next parts, of RAW_PART raw bytes each. Refusals: 2 for another length, and for more than MAX_RAW_STREAM
   * in all. */
  take(raw: Uint8Array): void;
  /** The answer for all raw bytes taken so far and the rest of the archive, of any length. Refusals: 2 where there are
   * none in all, or more than MAX_RAW_STREAM. */
  end(rest?: Uint8Array): RawStreamed;
  /** The state, to be kept together with the number of raw bytes taken. */
  readonly state: Uint8Array;
  /** The number of raw bytes taken. */
  readonly taken: number;
}

/** A tree to be lent beside the deal (see treeFill). */
export interface WithTree {
  tree?: Uint8Array | undefined;
}

/** The library. */
export interface Vizhuthamen {
  /** SHA-256 of a message of 0 to 2^24 bytes: 32 bytes. Refusals: 2. */
  sha256(message: Uint8Array): Uint8Array;
  /** The commitment of a run, a power of two from 32 to 2^24 bytes: 32 bytes. Refusals: 2, 11. */
  commitment(run: Uint8Array): Uint8Array;
  /** The index numbers for a deal size, a power of two from 512 to 2^36. Refusals: 2. */
  indexNumbers(size: Word): IndexNumbers;
  /** The 64 bytes of the entry for a commitment and two numbers, taken as they are. Refusals: 1, 8. */
  makeEntry(commitment: Uint8Array, offset: Word, size: Word): Uint8Array;
  /** What the 64 bytes of an entry say. Refusals: 2 for another length. */
  readEntry(entry: Uint8Array): ReadEntry;
  /** The state of every slot of a deal, whoever has made it, by rising place. Refusals: 2, 11. */
  audit(deal: Uint8Array): SlotState[];
  /** Writes the number of every slot's state into the first bytes of `states`, one byte each, as many as the deal's
   * table of owners has (see tableLength); the rest stays. Refusals: 2, 11, 12 for fewer bytes than slots. */
  auditInto(deal: Uint8Array, states: Uint8Array): void;
  /** How many slots of a deal's index are blank, damaged and valid. Refusals: 2, 11. */
  tally(deal: Uint8Array): Tally;
  /** The lowest slot that holds a kept entry with this commitment. Refusals: 1, 2, 11, 16. */
  find(deal: Uint8Array, commitment: Uint8Array): Found;
  /** Books a segment of 1 byte to half of the deal for a house, 1 or 2: it, zeros to the end of its area (the smallest
   * power of two at or above both its size and 128), its entry, and the house in the slot's byte of the table (see
   * tableLength) are written, unless the house has the segment in the deal. Refusals: 23 for another house, 2, 23 for a
   * table of another length, 4, 11, 22 where the house's entries stand in half of the slots or more, 13, 14; with a
   * tree 12 after 11. A tree is brought up to date. */
  book(deal: Uint8Array, table: Uint8Array, house: Word, segment: Uint8Array, options?: WithTree): Booking;
  /** Cancels the house's entry that stands at a place, kept or not: its 64 bytes and its slot's byte of the table are
   * zeros afterwards, and no other byte changes. Refusals: 23 for a house other than 1 or 2, 2, 23 for a table of
   * another length, 11, 6, 16 where no entry of the house stands; with a tree 12 after 11. A tree is brought up to
   * date. */
  cancel(deal: Uint8Array, table: Uint8Array, house: Word, place: Word, options?: WithTree): void;
  /** Collects a deal into a second one of the same length, without gaps; each moved entry's byte of the table stands in
   * the second table, as it was, for its new slot, with zeros after them. The deal itself and its table stay. Refusals:
   * 2, 23 for a table of another length, 12, 11, 20; with a tree 12 after 11. The tree is one for the second deal, and
   * is left filled. */
  collect(deal: Uint8Array, table: Uint8Array, second: Uint8Array, secondTable: Uint8Array, options?: WithTree): void;
  /** Plays a log back on an empty ledger for a deal of that size: every line in turn, by the rules of booking and
   * cancelling, up to the first one whose answers they do not give. Commitments are taken as they are; a booking is
   * answered 15 where the house has a row of equal size and commitment. Refusals: 2 for a size that no lent deal has, 3
   * for a log that is malformed anywhere, which is told before any line is played (`lines` says where). */
  playback(size: Word, log: Uint8Array): Playback;
  /** Builds the record of the entry at a place, for the deal of this number, into the first bytes of an output: its
   * length. Refusals: 2, 11, 6, 16, 12; with a tree 12 after 11 too, for its length. */
  buildInto(deal: Uint8Array, number: Word, place: Word, output: Uint8Array, options?: WithTree): number;
  /** The record of the entry at a place of a deal with this number. Refusals: 2, 11, 6, 16; with a tree 12 after 11. */
  build(deal: Uint8Array, number: Word, place: Word, options?: WithTree): Uint8Array;
  /** Checks a record against a deal's commitment, size and number.
   * Refusals, in this order: 1, 2, 3, 21, 4 to 8, 19, 9, 10. */
  check(commitment: Uint8Array, size: Word, number: Word, record: Uint8Array): void;
  /** Settles two records for one deal commitment, size and number. Refusals: those of the first one's check, of the
   * second one's, 18. */
  settleRecords(commitment: Uint8Array, size: Word, number: Word, first: Uint8Array, second: Uint8Array): Settled;
  /** Settles a record with a deal in hand, whose number this is. Refusals: 2, 11, those of the check against the deal's
   * own commitment and length and this number; with a tree 12 after 11. */
  settleWithDeal(deal: Uint8Array, number: Word, record: Uint8Array, options?: WithTree): Settled;
  /** The field at a place of a record, whatever its tag. Refusals: 3 where no field lies there. */
  readField(record: Uint8Array, place: Word): Field;
  /** The fields of a record from place 0 on, up to the first place that is no field. */
  fields(record: Uint8Array): IterableIterator<Field>;
  /** Writes the segment of raw bytes into the first bytes of an output: its length. Refusals: 2, 12. */
  padInto(raw: Uint8Array, output: Uint8Array): number;
  /** The segment of raw bytes. Refusals: 2. */
  pad(raw: Uint8Array): Uint8Array;
  /** Writes the raw bytes of a segment, as many as are named, into the first bytes of an output: their number.
   * Refusals: 2 for the raw length, 24, 11, 12. */
  unpadInto(rawLength: Word, segment: Uint8Array, output: Uint8Array): number;
  /** The raw bytes of a segment, as many as are named. Refusals: 2 for the raw length, 24, 11. */
  unpad(rawLength: Word, segment: Uint8Array): Uint8Array;
  /** Writes every inner node of a deal into its tree, heights from the bottom, left to right. Refusals: 2, 11, 12. What
   * holds of calls that take a tree is said in vizhuthamen.h. */
  treeFill(deal: Uint8Array, tree: Uint8Array): void;
  /** Writes the nodes over the pairs of nodes of `below` into `above`, which is half as long. Refusals: 12. */
  treeRow(below: Uint8Array, above: Uint8Array): void;
  /** A new tree, filled for a deal. Refusals: 2, 11. */
  filledTree(deal: Uint8Array): Uint8Array;
  /** A stream: a new start, or the one that left this state. Refusals: 12 for a state of another length. */
  streaming(state?: Uint8Array): Streaming;
  /** A raw archive: a new start, or the one that left this state with so many raw bytes taken, whole parts (RangeError
   * otherwise). Refusals: 12 for a state of another length. */
  rawStreaming(state?: Uint8Array, taken?: number): RawStreaming;
}

/** The length of the table of owners of a deal of that many bytes: a byte for each slot. The table is kept beside the
 * deal; a new deal's is all zeros. A slot's byte is 1 or 2 for the house that owns the entry there, and any other one
 * for nobody; it counts only where an entry stands. Booking sets it, cancelling clears it, and collecting writes a
 * second table. */
export function tableLength(size: Word): number;
/** Lines of a log. */
export const line: {
  /** The line for a booking of a segment with this commitment (that of its area) and this size, as `book` answered it,
   * or with the refusal that it threw; undefined where its code gets no line. */
  booking(house: number, commitment: Uint8Array, size: Word, answer: Booking | Refusal): BookingLine | undefined;
  /** The line for a cancellation, which was done or has thrown a refusal; undefined where its code gets no line. */
  cancelling(house: number, place: Word, refusal?: Refusal): CancellingLine | undefined;
  /** The bytes of a line in a log. Refusals: 1 for a commitment of another length. */
  encode(made: Line): Uint8Array;
};

/** Where a log is malformed, and why: the number of the line, from 1, the byte at which it starts, and what is wrong
 * with it, in words. Playing it back is refused with 3. */
export class Malformed extends Error {
  constructor(line: number, at: number, fault: string);
  readonly line: number;
  readonly at: number;
  readonly fault: string;
}

/** The lines of a log for a deal of that size, in turn; Malformed is thrown at the first place where it is malformed.
 * For a size that a lent deal has, a log without such a place is one that playback does not refuse. */
export function lines(size: Word, log: Uint8Array): IterableIterator<Line>;

/** The length of the tree of a deal of that many bytes. */
export function treeLength(size: Word): number;
/** The length of the segment of so many raw bytes, 128 / 127 of them and rounded up; undefined where there may not be
 * so many. */
export function segmentLength(rawLength: Word): number | undefined;

/** Bytes as hexadecimal digits, two to a byte. */
export const hex: {
  encode(bytes: Uint8Array): string;
  /** The bytes that the digits stand for; undefined where the text is not an even number of hex digits. */
  decode(digits: string): Uint8Array | undefined;
};

/** Why a text is not a piece CID: the message says it. */
export class NotAPieceCid extends Error {
  constructor(reason: string);
}

/** Piece CIDs: a commitment as the tools of the field write it. */
export const cid: {
  /** The piece CID of a commitment. Refusals: 1. */
  encode(commitment: Uint8Array): string;
  /** The commitment that a piece CID is of; NotAPieceCid is thrown where the text is none. */
  decode(words: string): Uint8Array;
};

/** The bytes of vizhuthamen.wasm, a Response with them, a URL of them, or the module that was compiled of them. */
export type Source = ArrayBuffer | ArrayBufferView | Response | URL | string | WebAssembly.Module;

/** The library, from a module; without one, from the module that is inlined in this file, or that lies beside it, with
 * SIMD where it is to be had. */
export function load(source?: Source | Promise<Source>): Promise<Vizhuthamen>;
