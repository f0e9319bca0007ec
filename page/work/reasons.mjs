// Why the check refuses a record, in words for whoever has to judge it: the words of the command line.
import { meaning, Refusal } from "../../javascript/vizhuthamen.mjs";
import { named } from "./record.mjs";

// What changes the commitment of a deal, and what that does to its records.
const OLDER = "every booking and every cancellation gives a deal a new commitment, " +
  "and a record that was built before belongs to the older one: " +
  "the records that last are those that are built when the deal is closed";

// The reasons that are the same for any record.
const OF_ANY = {
  [Refusal.COMMITMENT_LENGTH]: () => "the deal's commitment that is given is not 32 bytes long",
  [Refusal.SIZE]: ({ size }) => `${size} is no size of a deal, which is a power of two from 512 to 68719476736`,
  [Refusal.COMMITMENT_BITS]: () =>
    "the segment commitment in it has bits that no commitment has: it is damaged or forged",
  [Refusal.PATH_BITS]: () => "a node of its paths has bits that no node has: it is damaged or forged",
  [Refusal.SEGMENT_PATH]: () => "its segment path does not lead to the deal's commitment: " +
    `it is the record of another deal, or of this one before it was changed (${OLDER}), or it is damaged or forged`,
  [Refusal.ENTRY_PATH]: () => "the segment that it names is in the deal, but the index entry is not: " +
    "its entry path does not lead to the deal's commitment, so it is damaged or forged",
};

// The reasons that name what the record says.
const OF_THIS = {
  [Refusal.DEAL_NUMBER]: ({ number }, names) => `it names deal number ${names.number}, and ${number} is asked for: ` +
    `it is the record of another deal, or ${number} is not this deal's number`,
  [Refusal.SEGMENT_SIZE]: ({ size }, names) =>
    `it names a segment of ${names.size} bytes, which no deal of ${size} bytes has`,
  [Refusal.OFFSET]: ({ size }, names) =>
    `no segment of ${names.size} bytes stands at byte ${names.offset} of a deal of ${size} bytes`,
  [Refusal.PLACE]: ({ size }, names) => `no entry stands at byte ${names.place} of a deal of ${size} bytes`,
  [Refusal.PATH_LENGTH]: ({ size }, names) => names.dealSize === size
    ? "its segment path has another length than its segment's must have"
    : `its entry path is that of a deal of ${names.dealSize} bytes, and not of ${size}`,
};

/** Why the check refuses a record with a code, for the size and the number of a deal. */
export function reason(vz, code, terms, record) {
  if (code in OF_ANY) return OF_ANY[code](terms);
  const names = named(vz, record);
  if (names === undefined) {
    return "its bytes are not the fields of a record: it was cut, or is damaged, or is another kind of file";
  }
  return code in OF_THIS ? OF_THIS[code](terms, names) : meaning(code);
}
