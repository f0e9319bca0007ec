// What a record names, and the two ways from its entry and its segment up to a commitment.
import { Refusal } from "../../javascript/vizhuthamen.mjs";

/** The code with which a call refuses; 0 where it does not. */
export function codeOf(call) {
  try {
    call();
    return 0;
  } catch (error) {
    if (error instanceof Refusal) return error.code;
    throw error;
  }
}

/** Whether bytes are the same. */
export function same(a, b) {
  return a.length === b.length && a.every((byte, i) => byte === b[i]);
}

/** The smallest power of two at or above both a size and 128. */
export function area(size) {
  let area = 128n;
  while (area < BigInt(size)) area *= 2n;
  return area;
}

/** The fields of a record that is well formed. */
export function named(vz, record) {
  // The form depends on the record alone, so any commitment, size and number show whether it is right.
  if (codeOf(() => vz.check(new Uint8Array(32), 512, 0, record)) === Refusal.FORM) return undefined;
  const content = new Map(Array.from(vz.fields(record), (field) => [field.tag, field.content]));
  const number = (tag) => new DataView(content.get(tag).buffer, content.get(tag).byteOffset).getBigUint64(0, true);
  const nodes = (tag) =>
    Array.from({ length: content.get(tag).length / 32 }, (_, i) => content.get(tag).slice(32 * i, 32 * i + 32));
  const entryPath = nodes(6);
  return {
    commitment: content.get(1),
    offset: number(2),
    size: number(3),
    place: number(4),
    segmentPath: nodes(5),
    entryPath,
    number: number(7),
    // The size of the deals whose entries have paths of that length; 0 where no number is so large.
    dealSize: entryPath.length < 58 ? 64n << BigInt(entryPath.length) : 0n,
  };
}

// Whether a node has stray bits.
function isStray(node) {
  return (node[31] & 0xc0) !== 0;
}

// The way from a node up: of every level the node, its sibling, on which side that stands, which of them has stray
// bits, and the bytes of the deal below the node; then the node that is reached. Where a node has stray bits the way
// ends, and what is above is not known.
function walk(vz, start, bytes, first, siblings) {
  const levels = [];
  let [node, span, position] = [start, bytes, first / bytes];
  for (const sibling of siblings) {
    const side = position % 2n === 0n ? "right" : "left";
    const stray = { node: node !== undefined && isStray(node), sibling: isStray(sibling) };
    levels.push({ node, sibling, side, stray, from: position * span, to: (position + 1n) * span - 1n });
    const pair = node === undefined || stray.node || stray.sibling ? undefined : new Uint8Array(64);
    pair?.set(node, side === "right" ? 0 : 32);
    pair?.set(sibling, side === "right" ? 32 : 0);
    node = pair && vz.commitment(pair);
    [span, position] = [span * 2n, position / 2n];
  }
  return { levels, reached: node };
}

/** Both ways of a record. An entry with a commitment that has stray bits is none, and so has no hash. */
export function ways(vz, names) {
  const entry = isStray(names.commitment) ? undefined : vz.makeEntry(names.commitment, names.offset, names.size);
  return {
    segment: walk(vz, names.commitment, area(names.size), names.offset, names.segmentPath),
    entry: walk(vz, entry && vz.commitment(entry), 64n, names.place, names.entryPath),
  };
}
