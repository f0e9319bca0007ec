// Verifiable data aggregation (FRC-0058) over the proved module vizhuthamen.wasm.
//
//     import { load, tableLength } from "./vizhuthamen.mjs";
//
//     const vz = await load();
//     const deal = new Uint8Array(512), table = new Uint8Array(tableLength(512));
//     // of two, 1 and 2, that book in one deal; the table, beside the deal, says whose entry a slot holds
//     const house = 1;
//     const booked = vz.book(deal, table, house, new Uint8Array(128).fill(1));
//     const number = 2026n; // the deal's, which its bytes do not hold
//     const record = vz.build(deal, number, booked.position.place);
//     vz.check(vz.commitment(deal), 512, number, record);
//
// Every function of what `load` gives is a call of one function of the module, or of one of two where a tree may be in
// hand; the names are those of the Rust crate. A refusal is thrown, as a Refusal, which has the code and its meaning in
// words. The answers with a code that is not 0 and yet carry values (15 of a booking, 17 of a settling) are the kinds
// "alreadyKept" and "collision"; a log that is played back is "confirmed", or has a "wrongLine".
//
// Bytes are Uint8Arrays. What is written, a deal that is booked into among it, is changed in place, and with a refusal
// stays as it was; it must not overlap another argument (RangeError). Any other kind of memory is a TypeError.
//
// A number that goes in is a number or a BigInt, exact or refused (RangeError): deal numbers have 64 bits, and a number
// is exact up to 2^53 - 1 alone. A number that comes out is a number where the library bounds it (2^36 at most: sizes,
// offsets and places of what was booked or found, lengths, counts), and a BigInt where it may be any of 64 bits: offset
// and size that an entry's bytes say, and size, offset and place that a line of a log says.
//
// Each call copies what it is lent into the module's memory, and what was written back; nothing is kept there from call
// to call. That memory grows to what the largest call needs, some 16 MiB for each deal or tree lent, and is given back
// with the object.
//
// Anyone may use, copy, change and pass on this file, without conditions (0BSD).

// ---- what the library says of itself

/** The version of this file, and of the library that it is for. */
export const VERSION = "0.5.0";
/** The largest deal that is lent, in bytes; so too run and message. */
export const MAX_DEAL = 2 ** 24;
/** The longest table of owners, in bytes: that of the largest deal. */
export const MAX_TABLE = 128;
/** The length of the longest record that is accepted, and so of the longest that is built. */
export const MAX_RECORD = 1973;
/** The length of the longest raw archive that is padded in one call, in bytes. Its segment has 2^23. */
export const MAX_RAW = 8323072;
/** The largest number of bytes that a stream takes; so too the size of a deal. */
export const MAX_STREAM = 2 ** 36;
/** The length of a stream's state, in bytes. */
export const STREAM_STATE = 1072;
/** The bytes of a line of a log for a booking: tag 1, a length of two bytes, and the content of 58. */
export const BOOKING_LINE = 61;
/** The bytes of a line of a log for a cancellation: tag 2, a length of two bytes, and the content of 10. */
export const CANCELLING_LINE = 13;
/** The bytes of a row of a ledger. */
export const ROW = 57;
/** The bytes of the rows of a ledger for the largest deal, which has 128 slots. */
export const ROWS = 128 * ROW;
/** What the library answers where a line's answers are not those that the rules give: a number past all codes. */
export const WRONG_LINE = 256;
/** The raw bytes of a part of a raw archive that is taken by parts: 2^11 blocks of 127. */
export const RAW_PART = 127 * 2 ** 11;
/** The largest number of raw bytes whose commitment can be worked out. Their segment has 2^36 bytes. */
export const MAX_RAW_STREAM = 127 * 2 ** 29;

// Every code: its number, its name, its meaning.
const CODES = [
  [0, "OK", "done, accepted, or both records the same"],
  [1, "COMMITMENT_LENGTH", "a commitment is not 32 bytes long"],
  [2, "SIZE", "a deal, run, stream, message, raw archive or entry size is not allowed"],
  [3, "FORM", "the tags, order, lengths or end of a record are wrong, or a log is malformed"],
  [4, "SEGMENT_SIZE", "segment size not allowed for this deal size"],
  [5, "OFFSET", "offset not a multiple of the segment's area, or the area ends beyond the index start"],
  [6, "PLACE", "entry place not a multiple of 64, or outside the index area"],
  [7, "PATH_LENGTH", "a path has another number of nodes than it must have"],
  [8, "COMMITMENT_BITS", "the segment commitment has stray bits"],
  [9, "SEGMENT_PATH", "the segment path does not lead to the deal commitment"],
  [10, "ENTRY_PATH", "the entry path does not lead to the deal commitment"],
  [11, "STRAY_BITS", "a node of a run, deal, stream or segment has stray bits"],
  [12, "OUTPUT", "an output is too short, or an output, second deal or tree is not of its one length"],
  [13, "NO_SLOT", "no slot is free"],
  [14, "NO_PLACE", "no free place"],
  [15, "ALREADY_KEPT", "the segment is kept already"],
  [16, "NOT_KEPT", "no kept entry at that place, or with that commitment; to cancel, none of the house stands"],
  [17, "COLLISION", "two different 64-byte strings with one node hash are shown"],
  [18, "OTHER_PLACE", "the two records name different entry places"],
  [19, "PATH_BITS", "a node of a path has stray bits"],
  [20, "OVERLAP", "two standing entries overlap"],
  [21, "DEAL_NUMBER", "the record's deal number differs from the caller's"],
  [22, "QUOTA", "the house holds half the slots or more"],
  [23, "HOUSE", "the house is neither 1 nor 2, or a table of owners has not one byte a slot"],
  [24, "SEGMENT_LENGTH", "the segment has another length than the raw length gives"],
];

// The functions of vizhuthamen.h: `in` and `out` are memory that is read, and that is written, a pointer and a length
// each; u8 and u64 are numbers; u32* and u64* are numbers that are written.
const FUNCTIONS = {
  vz_sha256: "in out",
  vz_commitment: "in out",
  vz_stream_new: "out",
  vz_stream_take: "out in",
  vz_stream_end: "in out u64*",
  vz_fr32_pad: "in out u64*",
  vz_fr32_unpad: "u64 in out u64*",
  vz_index_numbers: "u64 u64* u64*",
  vz_make_entry: "in u64 u64 out",
  vz_read_entry: "in u32* out u64* u64*",
  vz_audit: "in out",
  vz_tally: "in u64* u64* u64*",
  vz_find: "in in u64* u64* u64*",
  vz_book: "out out u8 in u64* u64*",
  vz_cancel: "out out u8 u64",
  vz_collect: "in in out out",
  vz_playback: "u64 in u64* u32* u64* u64* u64* out",
  vz_build: "in u64 u64 out u64*",
  vz_check: "in u64 u64 in",
  vz_settle_records: "in u64 u64 in in out out",
  vz_settle_with_deal: "in u64 in out out",
  vz_tree_fill: "in out",
  vz_tree_row: "in out",
  vz_book_with_tree: "out out out u8 in u64* u64*",
  vz_cancel_with_tree: "out out out u8 u64",
  vz_collect_with_tree: "in in out out out",
  vz_build_with_tree: "in in u64 u64 out u64*",
  vz_settle_with_tree: "in in u64 in out out",
  vz_read_field: "in u64 u32* u64* u64* u64*",
};

/** What a code means, in words. */
export function meaning(code) {
  return CODES[code]?.[2] ?? "unknown code";
}

/** A code other than 0. Every code has its name here. */
export class Refusal extends Error {
  constructor(code) {
    super(`code ${code}: ${meaning(code)}`);
    this.name = "Refusal";
    this.code = code;
  }

  /** What the code means, in words. */
  get meaning() {
    return meaning(this.code);
  }
}
for (const [value, name] of CODES.slice(1)) Object.defineProperty(Refusal, name, { value, enumerable: true });

// Nothing with code 0, the refusal with any other.
function accepted(code) {
  if (code !== 0) throw new Refusal(code);
}

// ---- numbers and memory that may be lent

// A number of so many bits, as a BigInt.
function word(value, bits) {
  if (typeof value !== "number" && typeof value !== "bigint") {
    throw new TypeError(`a number or a BigInt is needed, not ${shown(value)}`);
  }
  if (typeof value === "number" && !Number.isSafeInteger(value)) {
    throw new RangeError(`${value} is no whole number below 2^53; larger ones are given as a BigInt`);
  }
  if (BigInt.asUintN(bits, BigInt(value)) !== BigInt(value)) {
    throw new RangeError(`${value} is no number of ${bits} bits`);
  }
  return BigInt(value);
}

// A number up to 2^53 - 1, for arithmetic here.
function count(value) {
  return Number(word(value, 53));
}

// A Uint8Array, of whichever realm.
function memory(value) {
  if (!ArrayBuffer.isView(value) || value[Symbol.toStringTag] !== "Uint8Array") {
    throw new TypeError(`a Uint8Array is needed, not ${shown(value)}`);
  }
  return value;
}

function shown(value) {
  return value === null
    ? "null"
    : typeof value === "object" ? `a ${value.constructor?.name ?? "bare object"}` : typeof value;
}

// What is written overlaps no other argument.
function judge(lent) {
  for (const one of lent.filter((each) => each.written)) {
    for (const other of lent) {
      if (one !== other && one.bytes.buffer === other.bytes.buffer && meet(one.bytes, other.bytes)) {
        throw new RangeError("memory that is written overlaps another argument");
      }
    }
  }
}

function meet(a, b) {
  return a.byteOffset < b.byteOffset + b.length && b.byteOffset < a.byteOffset + a.length;
}

const PAGE = 65536;
const ALIGNMENT = 16;

// An instance of the module, and the memory after what is its own. What one call is lent lies there side by side; the
// next call begins anew, with the whole stack, even where the engine has broken off a call.
class Library {
  #exports;
  #start;
  #stack;

  constructor(instance) {
    this.#exports = instance.exports;
    const other = Object.keys(FUNCTIONS).filter((name) => typeof this.#exports[name] !== "function");
    if (other.length > 0) {
      throw new TypeError(`the module is not that of version ${VERSION}: it has no ${other.join(", ")}`);
    }
    this.#start = Number(this.#exports.__heap_base.value);
    this.#stack = this.#exports.__stack_pointer.value;
  }

  // Calls a function with one argument for each kind of FUNCTIONS but the numbers that are written: the code, and
  // those.
  call(name, ...given) {
    const { words, lent, numbers, end } = this.#lend(FUNCTIONS[name].split(" "), given);
    judge(lent);
    this.#grow(end);
    const bytes = new Uint8Array(this.#exports.memory.buffer);
    for (const each of lent) bytes.set(each.bytes, each.at);
    this.#exports.__stack_pointer.value = this.#stack;
    const code = this.#exports[name](...words);
    for (const each of lent) {
      if (each.written) each.bytes.set(bytes.subarray(each.at, each.at + each.bytes.length));
    }
    const view = new DataView(this.#exports.memory.buffer);
    return [code, ...numbers.map((each) => each.read(view))];
  }

  // The arguments of the module's function, and where in its memory everything lies.
  #lend(kinds, given) {
    const words = [], lent = [], numbers = [];
    const arguments_ = given.values();
    let end = this.#start;
    const place = (length) => {
      const at = Math.ceil(end / ALIGNMENT) * ALIGNMENT;
      end = at + length;
      return at;
    };
    for (const kind of kinds) {
      if (kind === "in" || kind === "out") {
        const bytes = memory(arguments_.next().value), at = place(bytes.length);
        lent.push({ bytes, at, written: kind === "out" });
        words.push(BigInt(at), BigInt(bytes.length));
      } else if (kind === "u8") {
        words.push(Number(word(arguments_.next().value, 8)));
      } else if (kind === "u64") {
        words.push(word(arguments_.next().value, 64));
      } else {
        const at = place(8);
        words.push(BigInt(at));
        numbers.push({ read: (view) => (kind === "u32*" ? view.getUint32(at, true) : view.getBigUint64(at, true)) });
      }
    }
    return { words, lent, numbers, end };
  }

  #grow(end) {
    const missing = end - this.#exports.memory.buffer.byteLength;
    if (missing <= 0) return;
    try {
      this.#exports.memory.grow(Math.ceil(missing / PAGE));
    } catch {
      throw new RangeError(`no memory for a call that is lent ${end - this.#start} bytes`);
    }
  }
}

// ---- hashes and entries

function hashes(library) {
  const hashed = (name, bytes) => {
    const digest = new Uint8Array(32);
    accepted(library.call(name, bytes, digest)[0]);
    return digest;
  };
  return {
    sha256: (message) => hashed("vz_sha256", message),
    commitment: (run) => hashed("vz_commitment", run),
  };
}

const KINDS = ["blank", "damaged", "valid"];

function entries(library) {
  return {
    indexNumbers(size) {
      const [code, entries, start] = library.call("vz_index_numbers", size);
      accepted(code);
      return { entries: Number(entries), start: Number(start) };
    },
    makeEntry(commitment, offset, size) {
      const entry = new Uint8Array(64);
      accepted(library.call("vz_make_entry", commitment, offset, size, entry)[0]);
      return entry;
    },
    readEntry(entry) {
      const commitment = new Uint8Array(32);
      const [code, number, offset, size] = library.call("vz_read_entry", entry, commitment);
      accepted(code);
      const kind = KINDS[number];
      return kind === "valid" ? { kind, entry: { commitment, offset, size } } : { kind };
    },
  };
}

// ---- deals

/** The length of the table of owners of a deal of that many bytes: a byte for each slot. A new deal's is all zeros. */
export function tableLength(size) {
  return Math.max(4, Math.floor(count(size) / 131072));
}

/** The states of a slot in an audit, in words, by their numbers. Where two apply, the lower one is given. */
export const SLOT_STATES = Object.freeze(
  ["blank", "damaged", "not standing", "overlapping", "wrong commitment", "kept"]);

function audits(library) {
  const auditInto = (deal, states) => accepted(library.call("vz_audit", deal, states)[0]);
  return {
    auditInto,
    audit(deal) {
      const states = new Uint8Array(tableLength(memory(deal).length));
      auditInto(deal, states);
      return Array.from(states, (state) => SLOT_STATES[state]);
    },
  };
}

function deals(library) {
  return {
    tally(deal) {
      const [code, blank, damaged, valid] = library.call("vz_tally", deal);
      accepted(code);
      return { blank: Number(blank), damaged: Number(damaged), valid: Number(valid) };
    },
    find(deal, commitment) {
      const [code, ...found] = library.call("vz_find", deal, commitment);
      accepted(code);
      const [offset, size, place] = found.map(Number);
      return { offset, size, place, segment: deal.subarray(offset, offset + size) };
    },
    book(deal, table, house, segment, { tree } = {}) {
      const [code, offset, place] = tree === undefined
        ? library.call("vz_book", deal, table, house, segment)
        : library.call("vz_book_with_tree", deal, tree, table, house, segment);
      if (code !== Refusal.ALREADY_KEPT) accepted(code);
      return {
        kind: code === 0 ? "booked" : "alreadyKept",
        position: { offset: Number(offset), place: Number(place) },
      };
    },
    cancel(deal, table, house, place, { tree } = {}) {
      const [code] = tree === undefined
        ? library.call("vz_cancel", deal, table, house, place)
        : library.call("vz_cancel_with_tree", deal, tree, table, house, place);
      accepted(code);
    },
    collect(deal, table, second, secondTable, { tree } = {}) {
      const [code] = tree === undefined
        ? library.call("vz_collect", deal, table, second, secondTable)
        : library.call("vz_collect_with_tree", deal, table, second, tree, secondTable);
      accepted(code);
    },
  };
}

// ---- logs

// Of the lines for a booking and for a cancellation: the tag, how many bytes the line has, and the codes that get one.
const LINES = {
  booking: { tag: 1, length: BOOKING_LINE, codes: [0, 13, 14, 15, 22] },
  cancelling: { tag: 2, length: CANCELLING_LINE, codes: [0, 16] },
};

const codeOf = (answer) => (answer instanceof Refusal
  ? answer.code
  : answer?.kind === "alreadyKept" ? Refusal.ALREADY_KEPT : 0);

/** Lines of a log: what a call gets, and the bytes of it. */
export const line = Object.freeze({
  booking(house, commitment, size, answer) {
    const position = answer instanceof Refusal ? { offset: 0, place: 0 } : answer.position, code = codeOf(answer);
    const answers = { code, offset: word(position.offset, 64), place: word(position.place, 64) };
    return LINES.booking.codes.includes(code)
      ? { kind: "booking", house, commitment, size: word(size, 64), ...answers }
      : undefined;
  },
  cancelling(house, place, refusal) {
    const code = codeOf(refusal);
    return LINES.cancelling.codes.includes(code)
      ? { kind: "cancelling", house, place: word(place, 64), code }
      : undefined;
  },
  encode(made) {
    const { tag, length } = LINES[made.kind], bytes = new Uint8Array(length), view = new DataView(bytes.buffer);
    const put = (at, value) => view.setBigUint64(at, word(value, 64), true);
    bytes.set([tag, length - 3, 0, Number(word(made.house, 8))]);
    if (made.kind === "cancelling") {
      put(4, made.place);
    } else {
      if (memory(made.commitment).length !== 32) throw new Refusal(Refusal.COMMITMENT_LENGTH);
      bytes.set(made.commitment, 4);
      put(36, made.size);
      put(45, made.offset);
      put(53, made.place);
    }
    bytes[made.kind === "cancelling" ? 12 : 44] = Number(word(made.code, 8));
    return bytes;
  },
});

/** Where a log is malformed, and why: the number of the line, from 1, the byte at which it starts, and what is wrong
 * with it, in words. */
export class Malformed extends Error {
  constructor(line, at, fault) {
    super(`line ${line}, at byte ${at}: ${fault}`);
    this.name = "Malformed";
    this.line = line;
    this.at = at;
    this.fault = fault;
  }
}

// The line whose bytes these are, and which is of this kind.
function readLine(kind, bytes) {
  const view = new DataView(bytes.buffer, bytes.byteOffset, bytes.length), number = (at) => view.getBigUint64(at, true);
  const house = bytes[3];
  if (kind === "cancelling") return { kind, house, place: number(4), code: bytes[12] };
  const commitment = new Uint8Array(bytes.subarray(4, 36));
  return { kind, house, commitment, size: number(36), code: bytes[44], offset: number(45), place: number(53) };
}

// What is wrong with the tag, the length or the end of a line at the start of these bytes.
function formFault(kind, bytes) {
  if (kind === undefined) return `tag ${bytes[0]} is neither 1 nor 2`;
  const { length } = LINES[kind], stated = bytes[1] + 256 * bytes[2];
  if (bytes.length >= 3 && stated !== length - 3) return `${stated} bytes are not the length of its tag`;
  return bytes.length < length ? "the log ends within it" : undefined;
}

// What keeps a line from standing in the log of a deal of that size.
function lineFault(size, { kind, house, size: segment, code }) {
  if (house !== 1 && house !== 2) return `house ${house} is neither 1 nor 2`;
  if (kind === "booking" && (segment < 1n || segment > size / 2n)) {
    return `segment size ${segment} is not allowed for the deal's`;
  }
  return LINES[kind].codes.includes(code) ? undefined : `code ${code} is none that gets a line`;
}

function* readLines(size, log) {
  for (let at = 0, number = 1; at < log.length; number++) {
    const rest = log.subarray(at), kind = Object.keys(LINES).find((each) => LINES[each].tag === rest[0]);
    const fault = formFault(kind, rest);
    const read = fault === undefined ? readLine(kind, rest.subarray(0, LINES[kind].length)) : undefined;
    const wrong = fault ?? lineFault(size, read);
    if (wrong !== undefined) throw new Malformed(number, at, wrong);
    yield read;
    at += LINES[kind].length;
  }
}

/** The lines of a log for a deal of that size, in turn; Malformed is thrown at the first place where it is
 * malformed. */
export function lines(size, log) {
  return readLines(word(size, 64), memory(log));
}

function playbacks(library) {
  const row = (bytes) => {
    const view = new DataView(bytes.buffer, bytes.byteOffset, ROW);
    const number = (at) => Number(view.getBigUint64(at, true));
    return { house: bytes[0], commitment: bytes.slice(1, 33), size: number(33), offset: number(41), place: number(49) };
  };
  return {
    playback(size, log) {
      const rows = new Uint8Array(ROWS);
      const [answer, line, code, offset, place, count] = library.call("vz_playback", size, log, rows);
      if (answer === WRONG_LINE) {
        return {
          kind: "wrongLine",
          line: Number(line),
          ruling: { code, offset: Number(offset), place: Number(place) },
        };
      }
      accepted(answer);
      const starts = Array.from({ length: Number(count) }, (_, i) => ROW * i);
      return { kind: "confirmed", rows: starts.map((at) => row(rows.subarray(at, at + ROW))) };
    },
  };
}

// ---- trees

/** The length of the tree of a deal of that many bytes. */
export function treeLength(size) {
  return Math.max(count(size) - 32, 0);
}

function trees(library) {
  const treeFill = (deal, tree) => accepted(library.call("vz_tree_fill", deal, tree)[0]);
  return {
    treeFill,
    treeRow: (below, above) => accepted(library.call("vz_tree_row", below, above)[0]),
    filledTree(deal) {
      const tree = new Uint8Array(treeLength(memory(deal).length));
      treeFill(deal, tree);
      return tree;
    },
  };
}

// ---- records

function records(library) {
  const settled = (name, ...given) => {
    const left = new Uint8Array(64), right = new Uint8Array(64);
    const [code] = library.call(name, ...given, left, right);
    if (code === Refusal.COLLISION) return { kind: "collision", left, right };
    accepted(code);
    return { kind: "same" };
  };
  const buildInto = (deal, number, place, output, { tree } = {}) => {
    const [code, length] = tree === undefined
      ? library.call("vz_build", deal, number, place, output)
      : library.call("vz_build_with_tree", deal, tree, number, place, output);
    accepted(code);
    return Number(length);
  };
  return {
    buildInto,
    build(deal, number, place, options) {
      const record = new Uint8Array(MAX_RECORD);
      return record.slice(0, buildInto(deal, number, place, record, options));
    },
    check: (commitment, size, number, record) =>
      accepted(library.call("vz_check", commitment, size, number, record)[0]),
    settleRecords: (commitment, size, number, first, second) =>
      settled("vz_settle_records", commitment, size, number, first, second),
    settleWithDeal: (deal, number, record, { tree } = {}) => tree === undefined
      ? settled("vz_settle_with_deal", deal, number, record)
      : settled("vz_settle_with_tree", deal, tree, number, record),
  };
}

function recordFields(library) {
  const fieldAt = (record, place) => {
    const [code, tag, ...numbers] = library.call("vz_read_field", record, place);
    const [start, length, next] = numbers.map(Number);
    return [code, { tag, start, content: record.slice(start, start + length), next }];
  };
  return {
    readField(record, place) {
      const [code, field] = fieldAt(record, place);
      accepted(code);
      return field;
    },
    *fields(record) {
      let [code, field] = fieldAt(record, 0);
      while (code === 0) {
        yield field;
        [code, field] = fieldAt(record, field.next);
      }
    },
  };
}

// ---- Fr32 padding

/** The length of the segment of so many raw bytes, 128 / 127 of them and rounded up; undefined where there may not be
 * so many. */
export function segmentLength(rawLength) {
  const length = count(rawLength);
  return length >= 1 && length <= MAX_RAW ? Math.ceil((length * 128) / 127) : undefined;
}

function padding(library) {
  const written = (name, ...given) => {
    const [code, length] = library.call(name, ...given);
    accepted(code);
    return Number(length);
  };
  const padInto = (raw, output) => written("vz_fr32_pad", raw, output);
  const unpadInto = (rawLength, segment, output) => written("vz_fr32_unpad", rawLength, segment, output);
  return {
    padInto,
    pad(raw) {
      const segment = new Uint8Array(segmentLength(memory(raw).length) ?? 0);
      padInto(raw, segment);
      return segment;
    },
    unpadInto,
    unpad(rawLength, segment) {
      const length = word(rawLength, 64);
      const raw = new Uint8Array(length <= MAX_RAW ? Number(length) : 0);
      unpadInto(length, segment, raw);
      return raw;
    },
  };
}

// ---- the commitment of bytes that arrive in pieces

// The state of a stream, as bytes that can be kept anywhere until the next piece arrives.
class Streaming {
  #library;
  #state = new Uint8Array(STREAM_STATE);

  constructor(library, state) {
    this.#library = library;
    if (state === undefined) {
      accepted(library.call("vz_stream_new", this.#state)[0]);
    } else {
      if (memory(state).length !== STREAM_STATE) throw new Refusal(Refusal.OUTPUT);
      this.#state.set(state);
    }
  }

  take(piece) {
    accepted(this.#library.call("vz_stream_take", this.#state, piece)[0]);
  }

  end() {
    const commitment = new Uint8Array(32);
    const [code, count] = this.#library.call("vz_stream_end", this.#state, commitment);
    accepted(code);
    return { commitment, count: Number(count) };
  }

  get state() {
    return this.#state.slice();
  }
}

const SEGMENT_PART = 128 * 2 ** 11;
const ZEROS = 2 ** 13; // the nodes of a piece that the stream is given where no raw bytes are left

// The commitment of a raw archive as its bytes arrive: each part is padded into zeros, and a stream takes the
// commitments of these. That its answer is the commitment of the whole segment, filled with zeros, is proved:
// raw_by_parts, in crates/vizhuthamen/specs/RawByParts.antt.
class RawStreaming {
  #vz;
  #nodes;
  #taken;

  constructor(vz, state, taken = 0) {
    if (!Number.isSafeInteger(taken) || taken < 0 || taken > MAX_RAW_STREAM || taken % RAW_PART !== 0) {
      throw new RangeError(`${taken} raw bytes are no whole parts of ${RAW_PART} bytes`);
    }
    this.#vz = vz;
    this.#nodes = vz.streaming(state);
    this.#taken = taken;
  }

  take(raw) {
    const taken = this.#taken + memory(raw).length;
    if (raw.length % RAW_PART !== 0 || taken > MAX_RAW_STREAM) throw new Refusal(Refusal.SIZE);
    this.#parts(this.#nodes, raw, SEGMENT_PART);
    this.#taken = taken;
  }

  end(rest = new Uint8Array(0)) {
    const raw = this.#taken + memory(rest).length;
    if (raw < 1 || raw > MAX_RAW_STREAM) throw new Refusal(Refusal.SIZE);
    const size = Math.ceil((raw * 128) / 127);
    let area = 128;
    while (area < size) area *= 2;
    // an archive whose area is smaller than a part is a single one, of that size
    const part = Math.min(area, SEGMENT_PART);
    const nodes = this.#vz.streaming(this.#nodes.state);
    this.#parts(nodes, rest, part);
    this.#fill(nodes, area / part - Math.ceil(size / part), part);
    return { commitment: nodes.end().commitment, size, area };
  }

  get state() {
    return this.#nodes.state;
  }

  get taken() {
    return this.#taken;
  }

  #parts(nodes, raw, part) {
    const step = (part / 128) * 127;
    for (let at = 0; at < raw.length; at += step) {
      const segment = new Uint8Array(part);
      this.#vz.padInto(raw.subarray(at, at + step), segment);
      nodes.take(this.#vz.commitment(segment));
    }
  }

  // The commitments of so many parts without raw bytes, which are all alike.
  #fill(nodes, count, part) {
    if (count === 0) return;
    const node = this.#vz.commitment(new Uint8Array(part));
    const zeros = new Uint8Array(32 * Math.min(count, ZEROS));
    for (let at = 0; at < zeros.length; at += 32) zeros.set(node, at);
    for (let left = count; left > 0; left -= ZEROS) nodes.take(zeros.subarray(0, 32 * Math.min(left, ZEROS)));
  }
}

// ---- text

function text(value) {
  if (typeof value !== "string") throw new TypeError(`a text is needed, not ${shown(value)}`);
  return value;
}

/** Bytes as hexadecimal digits, two to a byte. */
export const hex = Object.freeze({
  encode: (bytes) => Array.from(memory(bytes), (byte) => byte.toString(16).padStart(2, "0")).join(""),
  decode: (digits) => /^(?:[0-9a-fA-F]{2})*$/.test(text(digits))
    ? Uint8Array.from({ length: digits.length / 2 }, (_, i) => parseInt(digits.slice(2 * i, 2 * i + 2), 16))
    : undefined,
});

const BASE32 = "abcdefghijklmnopqrstuvwxyz234567";
// What stands before the commitment in a piece CID: its numbers, and what another one is said to be.
const CID_HEAD = [
  [1n, (version) => `it is a CID of version ${version}, not of version 1`],
  [0xf101n, (codec) => `its codec is 0x${codec.toString(16)}, not fil-commitment-unsealed (0xf101)`],
  [0x1012n, (hash) => `its hash function is 0x${hash.toString(16)}, not sha2-256-trunc254-padded (0x1012)`],
  [32n, (length) => `its hash has ${length} bytes, not 32`],
];

const CID_SHORT = "it is too short: characters are missing at its end";
const CID_NUMBER = "a number in it is not written as in a CID";

/** Why a text is not a piece CID. */
export class NotAPieceCid extends Error {
  constructor(reason) {
    super(reason);
    this.name = "NotAPieceCid";
  }
}

// Seven bits a byte, the lowest first, bit 7 set in all bytes but the last.
function varint(number) {
  return number < 0x80n ? [Number(number)] : [Number(number & 0x7fn) | 0x80, ...varint(number >> 7n)];
}

// The number at the start of bytes, and how many it takes: at most nine, and no more than it must have.
function readVarint(bytes) {
  const length = bytes.slice(0, 9).findIndex((byte) => byte < 0x80) + 1;
  if (length === 0) throw new NotAPieceCid(bytes.length < 9 ? CID_SHORT : CID_NUMBER);
  if (length > 1 && bytes[length - 1] === 0) throw new NotAPieceCid(CID_NUMBER);
  const number = bytes.slice(0, length).reduceRight((sum, byte) => (sum << 7n) | BigInt(byte & 0x7f), 0n);
  return [number, length];
}

function toBase32(bytes) {
  let [digits, bits, width] = ["", 0, 0];
  for (const byte of bytes) {
    [bits, width] = [(bits << 8) | byte, width + 8];
    for (; width >= 5; width -= 5) digits += BASE32[(bits >> (width - 5)) & 31];
    bits &= (1 << width) - 1;
  }
  return width > 0 ? digits + BASE32[bits << (5 - width)] : digits;
}

function fromBase32(digits) {
  let [bytes, bits, width] = [[], 0, 0];
  for (const [i, character] of [...digits].entries()) {
    const value = BASE32.indexOf(character);
    if (value < 0) throw new NotAPieceCid(`'${character}', its character ${i + 2}, is none of a to z and 2 to 7`);
    [bits, width] = [(bits << 5) | value, width + 5];
    if (width >= 8) {
      width -= 8;
      bytes.push(bits >> width);
      bits &= (1 << width) - 1;
    }
  }
  if (width >= 5 || bits !== 0) {
    throw new NotAPieceCid("its last characters make no whole byte: some are missing or wrong");
  }
  return bytes;
}

/** Piece CIDs: a commitment as the tools of the field write it. */
export const cid = Object.freeze({
  encode(commitment) {
    if (memory(commitment).length !== 32) throw new Refusal(Refusal.COMMITMENT_LENGTH);
    return "b" + toBase32([...CID_HEAD.flatMap(([number]) => varint(number)), ...commitment]);
  },
  decode(words) {
    if (!text(words).startsWith("b")) throw new NotAPieceCid("it does not begin with b, for base32 in lower case");
    let rest = fromBase32(words.slice(1));
    for (const [expected, other] of CID_HEAD) {
      const [number, length] = readVarint(rest);
      if (number !== expected) throw new NotAPieceCid(other(number));
      rest = rest.slice(length);
    }
    if (rest.length < 32) throw new NotAPieceCid(CID_SHORT);
    if (rest.length > 32) throw new NotAPieceCid(`it is too long: ${rest.length - 32} bytes follow the commitment`);
    return Uint8Array.from(rest);
  },
});

// ---- loading

// The modules themselves in base64, by name, where tools/inline has put them here.
const INLINED = {};

// A module of one function with SIMD.
const SIMD = [
  0, 97, 115, 109, 1, 0, 0, 0, 1, 5, 1, 96, 0, 1, 123, 3, 2, 1, 0, 10, 10, 1, 8, 0, 65, 0, 253, 15, 253, 98, 11,
];

// The module that is inlined, or that lies beside this file: with SIMD where it is to be had.
function own() {
  const name = WebAssembly.validate(Uint8Array.from(SIMD)) ? "vizhuthamen-simd.wasm" : "vizhuthamen.wasm";
  return name in INLINED
    ? Uint8Array.from(atob(INLINED[name]), (character) => character.charCodeAt(0))
    : new URL(name, import.meta.url);
}

async function bytesAt(url) {
  if (url.protocol === "file:" && globalThis.process?.versions?.node !== undefined) {
    return (await import("node:fs/promises")).readFile(url);
  }
  return bytesOf(await fetch(url));
}

async function bytesOf(response) {
  if (!response.ok) throw new TypeError(`${response.url}: the module is not there (status ${response.status})`);
  return response.arrayBuffer();
}

async function compiled(source) {
  if (source instanceof WebAssembly.Module) return source;
  if (source instanceof ArrayBuffer) return WebAssembly.compile(source);
  if (ArrayBuffer.isView(source)) {
    return compiled(source.buffer.slice(source.byteOffset, source.byteOffset + source.byteLength));
  }
  if (typeof source === "string") return compiled(new URL(source, globalThis.location?.href));
  if (source instanceof URL) return WebAssembly.compile(await bytesAt(source));
  if (typeof Response !== "undefined" && source instanceof Response) return WebAssembly.compile(await bytesOf(source));
  throw new TypeError("the module is given as bytes, a Response, a URL or a WebAssembly.Module, " +
    `not as ${shown(source)}`);
}

/** The library, from a module: its bytes, a Response, a URL, or a WebAssembly.Module; without one, from the module that
 * is inlined here, or that lies beside this file. */
export async function load(source = own()) {
  const library = new Library(await WebAssembly.instantiate(await compiled(await source)));
  const vz = {
    ...hashes(library),
    ...entries(library),
    ...audits(library),
    ...deals(library),
    ...playbacks(library),
    ...trees(library),
    ...records(library),
    ...recordFields(library),
    ...padding(library),
    streaming: (state) => new Streaming(library, state),
    rawStreaming: (state, taken) => new RawStreaming(vz, state, taken),
  };
  return Object.freeze(vz);
}
