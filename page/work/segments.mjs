// Files as segments: a file that is one, and a plain file that is padded to one.
import { MAX_DEAL, MAX_RAW, Refusal } from "../../javascript/vizhuthamen.mjs";
import { area } from "./record.mjs";

/** A file that was read: its name as it is shown, its length, and its bytes where it is not too long for any call. */
export async function readFile(file, name) {
  const bytes = file.size <= MAX_DEAL ? new Uint8Array(await file.arrayBuffer()) : undefined;
  return { name, length: BigInt(file.size), bytes };
}

/** Name and length of a file, for messages. */
export function described({ name, length }) {
  return length > MAX_DEAL ? `${name} has more than ${MAX_DEAL} bytes` : `${name} has ${length} bytes`;
}

/** The segment that a file is or becomes. Refusals: 2, 11. */
export function segmentOf(vz, file, padding) {
  if (file.bytes === undefined || file.bytes.length === 0) throw new Refusal(Refusal.SIZE);
  const segment = padding === "Fr32" ? vz.pad(file.bytes) : file.bytes;
  const filled = new Uint8Array(Number(area(segment.length)));
  filled.set(segment);
  return {
    length: file.length, sha256: vz.sha256(file.bytes), size: BigInt(segment.length), commitment: vz.commitment(filled),
  };
}

/** Why a file is no segment, or becomes none. */
export function whyNoSegment(code, file, padding) {
  if (code === Refusal.STRAY_BITS) {
    const at = file.bytes.findIndex((byte, i) => i % 32 === 31 && (byte & 0xc0) !== 0);
    return `${file.name} has stray bits, first in byte ${at}, and no segment has such`;
  }
  return padding === "Fr32"
    ? `${described(file)}; an archive has from 1 to ${MAX_RAW} bytes`
    : `${described(file)}; a segment here has from 1 to ${MAX_DEAL} bytes`;
}
