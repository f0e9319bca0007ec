// Whether a proof file proves that a file is in a deal. First whether its members agree with its record, then whether
// the record is that of the file, then whether the library accepts the record, for what is given of the deal and else
// for what the proof says.
import { hex, Refusal } from "../../javascript/vizhuthamen.mjs";
import { MEMBERS, values } from "./proof.mjs";
import { reason } from "./reasons.mjs";
import { codeOf, named, same } from "./record.mjs";
import { segmentOf, whyNoSegment } from "./segments.mjs";
import { quoted } from "./texts.mjs";

/** Why a proof does not prove it: the step that fails, the library's code where it is one, the member that is wrong
 * where it is one. */
export class No extends Error {
  constructor(step, why, { code, member } = {}) {
    super(why);
    this.step = step;
    this.code = code;
    this.member = member;
  }
}

/** The steps of a judgement, in their order, and the codes that belong to each. */
export const STEPS = [
  ["members", "The proof does not contradict itself", []],
  ["file", "The proof is of this file", []],
  ["terms", "Commitment and size are those of a deal", [Refusal.COMMITMENT_LENGTH, Refusal.SIZE]],
  ["number", "The record names the deal's number", [Refusal.DEAL_NUMBER]],
  ["fields", "Sizes, places and lengths in the record are allowed", [
    Refusal.FORM, Refusal.SEGMENT_SIZE, Refusal.OFFSET, Refusal.PLACE, Refusal.PATH_LENGTH,
  ]],
  ["bits", "No node in the record has stray bits", [Refusal.COMMITMENT_BITS, Refusal.PATH_BITS]],
  ["segment", "The segment path leads to the deal's commitment", [Refusal.SEGMENT_PATH]],
  ["entry", "The entry path leads to the deal's commitment", [Refusal.ENTRY_PATH]],
  ["named", "The proof names that commitment", []],
];

/** The step to which a code of the check belongs. */
export function stepOf(code) {
  return STEPS.find(([, , codes]) => codes.includes(code))[0];
}

/** What the check is asked: what is given, and else what the proof says. */
export function terms(facts, given) {
  return {
    commitment: given.commitment ?? facts.dealCommitment,
    size: given.size ?? facts.dealSize,
    number: given.number ?? facts.number,
  };
}

/** Judges a proof for a file; throws No. */
export function judge(vz, proof, file, given) {
  agrees(vz, proof);
  isOf(vz, proof.facts, file);
  isAccepted(vz, proof.facts, given);
}

// A proof must not contradict itself.
function agrees(vz, { values: says, facts }) {
  const names = named(vz, facts.record);
  if (names === undefined) {
    const why = "its member record is no record: its bytes are not the fields that a record has";
    throw new No("members", why, { code: Refusal.FORM, member: "record" });
  }
  // What every member must be where the record is right, beside what only the file and the deal can tell.
  const is = values(vz, {
    ...facts,
    segmentSize: names.size,
    segmentCommitment: names.commitment,
    offset: names.offset,
    place: names.place,
    number: names.number,
    dealSize: names.dealSize,
  });
  const wrong = MEMBERS.filter((_, i) => says[i] !== is[i]);
  // The sentence and the check value are wrong wherever another member is.
  const member = wrong.find((name) => name !== "claim" && name !== "check") ?? wrong[0];
  if (member === undefined) return;
  const at = MEMBERS.indexOf(member);
  throw new No("members", `it contradicts itself: ${contradiction(member, says[at], is[at])}`, { member });
}

// What a member says, and what it must say.
function contradiction(member, says, is) {
  switch (member) {
    case "claim":
      return "its member claim is not the sentence that the other members give";
    case "check":
      return "its member check is not the check value of the others: " +
        "one of them was changed after the proof was written";
    case "segment_cid":
    case "deal_cid": {
      const other = member.replace("cid", "commitment");
      return `its member ${member} says ${quoted(says)}, and the piece CID of its member ${other} is ${quoted(is)}`;
    }
    default:
      return `its member ${member} says ${quoted(says)}, and the record in it says ${quoted(is)}`;
  }
}

// The record of a proof must be that of the file, and so must length and SHA-256.
function isOf(vz, facts, file) {
  const other = (why, more) => new No("file", `${file.name} is another file: ${why}`, more);
  if (file.length !== facts.length) {
    throw other(`it has ${file.length} bytes, and the proof is of one of ${facts.length}`);
  }
  let segment;
  const code = codeOf(() => (segment = segmentOf(vz, file, facts.padding)));
  if (code !== 0) throw other(whyNoSegment(code, file, facts.padding), { code });
  const [has, says] = [hex.encode(segment.sha256), hex.encode(facts.sha256)];
  const isSame = segment.size === facts.segmentSize && same(segment.commitment, facts.segmentCommitment);
  if (isSame && has === says) return;
  if (isSame) {
    const why = `its member sha256 says ${says}, and ${file.name}, of which its record is, has ${has}`;
    throw new No("file", why, { member: "sha256" });
  }
  if (has !== says) {
    throw other(`it has as many bytes as the proof says, but others: its SHA-256 is ${has}, and not ${says}`);
  }
  const why = "the record in it is that of another file: " +
    `it names the segment commitment ${hex.encode(facts.segmentCommitment)}, and ` +
    `${file.name} has ${hex.encode(segment.commitment)}`;
  throw new No("file", why, { member: "record" });
}

// The record must be accepted, and the proof must name the commitment for which it is.
function isAccepted(vz, facts, given) {
  const { commitment, size, number } = terms(facts, given);
  const [names, is] = [hex.encode(facts.dealCommitment), hex.encode(commitment)];
  const code = codeOf(() => vz.check(commitment, size, number, facts.record));
  if (code === 0 && names === is) return;
  if (code === 0) {
    const why = `its member deal_commitment says ${names}, and the record in it leads to ${is}`;
    throw new No("named", why, { member: "deal_commitment" });
  }
  const other = names === is ? "" : `the proof is for the commitment ${names}, and ${is} is given: `;
  const why = `the record in it is refused: ${other}${reason(vz, code, { size, number }, facts.record)}`;
  throw new No(stepOf(code), why, { code });
}
