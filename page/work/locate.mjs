// Which segment of a deal is a file's, and the proof of it.
import { hex, meaning, Refusal } from "../../javascript/vizhuthamen.mjs";
import { readGiven } from "./given.mjs";
import { judge } from "./judge.mjs";
import { parseProof, proofText } from "./proof.mjs";
import { codeOf } from "./record.mjs";
import { readFile, segmentOf, whyNoSegment } from "./segments.mjs";
import { shown } from "./texts.mjs";

const NOTHING = { commitment: undefined, size: undefined, number: undefined };

/** Finds a file in a deal of which the map is known: as a plain file, and else as a segment as it is. */
export async function locate(vz, deal, map, { file: dropped, given: texts }, report) {
  const { number } = readGiven({ number: texts.number });
  report(0.1, "reading");
  const file = await readFile(dropped, shown(dropped.name));
  report(0.3, "hashing the file");
  const taken = ["Fr32", "none"].map((padding) => segment(vz, file, padding));
  report(0.6, "searching");
  const found = taken.find(({ code, of }) => code === 0 && slotOf(map, of));
  if (found === undefined) return notLocated(map, file, taken[0]);
  const slot = slotOf(map, found.of);
  report(0.8, "building the record");
  const words = { verdict: "yes", slot: slot.number, sentence: sentence(map, file, found, slot) };
  return { ...words, ...proved(vz, deal, map, file, found, slot, number) };
}

function segment(vz, file, padding) {
  let of;
  const code = codeOf(() => (of = segmentOf(vz, file, padding)));
  return { padding, code, of };
}

// The lowest slot whose entry stands and is of a segment, size and all: one that is kept, or one that is not.
function slotOf(map, { size, commitment }, wanted = true) {
  const node = hex.encode(commitment);
  return map.slots.find(({ standing, kept, entry }) =>
    standing && kept === wanted && entry.commitment === node && entry.size === size);
}

function sentence(map, file, { padding, of }, slot) {
  const padded = padding === "Fr32" ? `padded to a segment of ${of.size} bytes` : "a segment as it is";
  return `${file.name} is kept by ${map.name}, in slot ${slot.number} (place ${slot.place}): ` +
    `its ${file.length} bytes, ${padded}, stand at byte ${slot.entry.offset} of the deal`;
}

// The proof file, where the deal's number is known and the library builds a record. One that would not hold is not
// given.
function proved(vz, deal, map, file, { padding, of }, slot, number) {
  if (number === undefined) {
    return { unproved: `the number of ${map.name} is not known: type it above, and find the file once more` };
  }
  let record;
  const code = codeOf(() => (record = vz.build(deal.bytes, number, slot.place)));
  if (code !== 0) return { unproved: `no record is built: code ${code}: ${meaning(code)}` };
  const facts = {
    name: file.name, padding, length: of.length, sha256: of.sha256,
    segmentSize: of.size, segmentCommitment: of.commitment,
    offset: slot.entry.offset, place: BigInt(slot.place), number, record,
    dealSize: BigInt(map.size), dealCommitment: hex.decode(map.commitment.hex),
  };
  const text = proofText(vz, facts);
  judge(vz, parseProof(new TextEncoder().encode(text)), file, NOTHING);
  return { proof: { name: `${file.name}.proof`, text } };
}

// What a deal has in the place of a segment that it does not keep.
function notLocated(map, file, { code, of, padding }) {
  const no = (sentence, refusal = Refusal.NOT_KEPT) =>
    ({ verdict: "no", sentence, code: refusal, meaning: meaning(refusal) });
  if (code !== 0) return no(whyNoSegment(code, file, padding), code);
  const spoilt = slotOf(map, of, false);
  if (spoilt !== undefined) {
    return no(`slot ${spoilt.number} (place ${spoilt.place}) has the entry of ${file.name}, ` +
      `but the bytes in ${map.name} are no longer its own`);
  }
  const other = map.slots.find(({ kept, entry }) => kept && entry.commitment === hex.encode(of.commitment));
  if (other !== undefined) {
    return no(`${map.name} keeps no ${file.name}, ` +
      `but at place ${other.place} a file that differs in the zeros at its end alone: ` +
      `its segment has ${other.entry.size} bytes, and that of ${file.name} ${of.size}`);
  }
  return no(`${map.name} does not keep ${file.name}`);
}
