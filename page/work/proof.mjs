// The proof file: what is said of one file in a deal, with the record that shows it (docs/FORMAT.md, "The proof file").
// Bytes are Uint8Arrays here and numbers BigInts, as they may have 64 bits.
import { cid, hex } from "../../javascript/vizhuthamen.mjs";
import { Fault, readValue } from "./values.mjs";
import { quoted } from "./texts.mjs";

const FORM = "vizhuthamen proof";
const VERSION = "1";
/** No proof is longer: a record has at most 1973 bytes, and a name 255. */
export const LONGEST = 2 ** 16;

/** The members of a proof, in their order. */
export const MEMBERS = [
  "form", "version", "claim", "name", "padding", "length", "sha256", "segment_size", "segment_commitment",
  "segment_cid", "offset", "place", "deal_number", "deal_size", "deal_commitment", "deal_cid", "record", "check",
];

function claim(facts) {
  const padded = facts.padding === "Fr32"
    ? `padded (Fr32) to a segment of ${facts.segmentSize} bytes`
    : `a segment of ${facts.segmentSize} bytes as it is`;
  return `The file of ${facts.length} bytes with the SHA-256 ${hex.encode(facts.sha256)}, ${padded}, ` +
    `stands at byte ${facts.offset} of the deal with the number ${facts.number}, ` +
    `the size of ${facts.dealSize} bytes and the commitment ${hex.encode(facts.dealCommitment)}, ` +
    `and its entry in the index of that deal stands at byte ${facts.place}.`;
}

/** The values of the members, in their order. */
export function values(vz, facts) {
  const all = [
    FORM, VERSION, claim(facts), facts.name, facts.padding, `${facts.length}`, hex.encode(facts.sha256),
    `${facts.segmentSize}`, hex.encode(facts.segmentCommitment), cid.encode(facts.segmentCommitment),
    `${facts.offset}`, `${facts.place}`, `${facts.number}`,
    `${facts.dealSize}`, hex.encode(facts.dealCommitment), cid.encode(facts.dealCommitment), hex.encode(facts.record),
  ];
  // It shows that a value was changed by accident.
  const check = vz.sha256(new TextEncoder().encode(all.map((value) => `${value}\0`).join("")));
  return [...all, hex.encode(check)];
}

/** The proof file. */
export function proofText(vz, facts) {
  const lines = values(vz, facts).map((value, i) => `  "${MEMBERS[i]}": ${JSON.stringify(value)}`);
  return `{\n${lines.join(",\n")}\n}\n`;
}

/** Why a text is no proof, in words. */
export class NotAProof extends Error {}

/** The proof that a text is: the values of its members, in their order, and what they say. Whether it says the truth is
 * not judged. */
export function parseProof(bytes) {
  if (bytes.length > LONGEST) throw new NotAProof(`it has more than ${LONGEST} bytes, and no proof has so many`);
  const members = texts(bytes);
  judgeForm(members.get("form"), members.get("version"));
  const unknown = [...members.keys()].find((name) => !MEMBERS.includes(name));
  if (unknown !== undefined) {
    throw new NotAProof(`it has the member ${quoted(unknown)}, which no proof of version ${VERSION} has`);
  }
  const missing = MEMBERS.find((name) => !members.has(name));
  if (missing !== undefined) throw new NotAProof(`its member ${missing} is missing`);
  return { values: MEMBERS.map((name) => members.get(name)), facts: readFacts(members) };
}

// The members of an object whose values are all texts.
function texts(bytes) {
  const members = readValue(bytes);
  if (!(members instanceof Map)) throw new NotAProof("it is no object: it does not begin with '{'");
  const other = [...members.keys()].find((name) => typeof members.get(name) !== "string");
  if (other !== undefined) {
    throw new NotAProof(`the value of its member ${quoted(other)} is no text in quotation marks`);
  }
  return members;
}

/** Whether bytes can be read as a proof. */
export function isProof(bytes) {
  try {
    parseProof(bytes);
    return true;
  } catch (error) {
    if (error instanceof NotAProof || error instanceof Fault) return false;
    throw error;
  }
}

function judgeForm(form, version) {
  if (form !== FORM) {
    const found = form === undefined ? "is missing" : `says ${quoted(form)}`;
    throw new NotAProof(`it is a file of another kind: the member form, "${FORM}" in a proof, ${found}`);
  }
  if (version === undefined) throw new NotAProof("its member version is missing");
  if (version !== VERSION) {
    throw new NotAProof(`its version is ${quoted(version)}, and this program reads version "${VERSION}"`);
  }
}

function readFacts(members) {
  const read = (name, reader, what) => {
    const value = reader(members.get(name));
    if (value === undefined) {
      throw new NotAProof(`its member ${name} is ${quoted(members.get(name))}, which is ${what}`);
    }
    return value;
  };
  const number = (name) => read(name, writtenNumber, "no decimal number below 2^64");
  const node = (name) => read(name, writtenNode, "not 64 hex digits in lower case");
  return {
    name: members.get("name"),
    padding: read("padding", (word) => (["Fr32", "none"].includes(word) ? word : undefined), "neither Fr32 nor none"),
    length: number("length"),
    sha256: node("sha256"),
    segmentSize: number("segment_size"),
    segmentCommitment: node("segment_commitment"),
    offset: number("offset"),
    place: number("place"),
    number: number("deal_number"),
    dealSize: number("deal_size"),
    dealCommitment: node("deal_commitment"),
    record: read("record", writtenBytes, "not hex in lower case"),
  };
}

/** A decimal number below 2^64, of digits alone. */
export function decimal(text) {
  const number = /^[0-9]+$/.test(text) ? BigInt(text) : undefined;
  return number !== undefined && number < 2n ** 64n ? number : undefined;
}

// Numbers and bytes as they are written here: without a zero before them, in lower case.
function writtenNumber(text) {
  const number = decimal(text);
  return `${number}` === text ? number : undefined;
}

function writtenBytes(text) {
  return text === text.toLowerCase() ? hex.decode(text) : undefined;
}

function writtenNode(text) {
  const bytes = writtenBytes(text);
  return bytes?.length === 32 ? bytes : undefined;
}
