// The answer to a proof file and a file: a verdict in a sentence, what it rests on, the steps, and the two ways to the
// commitment.
import { hex, meaning } from "../../javascript/vizhuthamen.mjs";
import { NotUsable } from "./faults.mjs";
import { condition, readGiven } from "./given.mjs";
import { judge, No, STEPS, terms } from "./judge.mjs";
import { isProof, LONGEST, parseProof } from "./proof.mjs";
import { codeOf, named, same, ways } from "./record.mjs";
import { readFile, segmentOf } from "./segments.mjs";
import { shown } from "./texts.mjs";

/** Judges a proof file for a file. */
export async function verify(vz, { proof: proofFile, file: dropped, given: texts }, report) {
  const given = readGiven(texts);
  report(0.1, "reading");
  const [read, file] = [await readFile(proofFile, shown(proofFile.name)), await readFile(dropped, shown(dropped.name))];
  const proof = parsed(read, file);
  report(0.3, "hashing the file");
  let no;
  try {
    judge(vz, proof, file, given);
  } catch (error) {
    if (!(error instanceof No)) throw error;
    no = error;
  }
  report(0.8, "following the paths");
  const answer = no === undefined ? yes(proof.facts, read, file, given) : refused(no, proof.facts, read, file);
  const names = named(vz, proof.facts.record);
  return {
    ...answer,
    steps: steps(no),
    failed: no?.step,
    compared: compared(vz, proof.facts, file),
    drawing: names && { names, ...ways(vz, names), commitment: terms(proof.facts, given).commitment },
  };
}

// The proof that a file is. The two files may have been dropped the wrong way round.
function parsed(read, file) {
  try {
    return parseProof(read.bytes ?? new Uint8Array(LONGEST + 1)); // one that was not read is too long
  } catch (error) {
    const turned = file.bytes !== undefined && isProof(file.bytes)
      ? `; ${file.name} is one: exchange the two files`
      : "";
    throw new NotUsable(`${read.name} is not a proof file, or is damaged: ${error.message}${turned}`);
  }
}

function yes(facts, read, file, given) {
  const padded = facts.padding === "Fr32" ? `padded to a segment of ${facts.segmentSize} bytes` : "a segment as it is";
  const sentence = `${file.name} is in the deal with the number ${facts.number}: ` +
    `its ${facts.length} bytes, ${padded}, stand at byte ${facts.offset} of the deal of ${facts.dealSize} bytes ` +
    `with the commitment ${hex.encode(facts.dealCommitment)}, and its entry in the index stands at byte ${facts.place}`;
  const rests = condition(given, facts.dealCommitment, read.name);
  return { verdict: "yes", sentence, code: 0, meaning: "the proof holds", condition: rests };
}

const NOT_PROVED = 66;

function refused(no, facts, read, file) {
  const itself = no.member === undefined ? "the proof is of another file" : "the proof contradicts itself";
  const words = no.code === undefined ? itself : meaning(no.code);
  const sentence = `${read.name} does not prove that ${file.name} is in the deal with the number ${facts.number}: ` +
    `${no.message}`;
  return { verdict: "no", sentence, code: no.code ?? NOT_PROVED, meaning: words, member: no.member };
}

// Which steps were passed, which one fails, and which were not come to.
function steps(no) {
  const failed = no === undefined ? STEPS.length : STEPS.findIndex(([name]) => name === no.step);
  return STEPS.map(([name, words], i) =>
    ({ name, words, state: i < failed ? "passed" : i === failed ? "failed" : "open" }));
}

// What the proof says of the file, beside what the file has.
function compared(vz, facts, file) {
  let segment;
  const code = codeOf(() => (segment = segmentOf(vz, file, facts.padding)));
  const row = (words, says, has) => ({
    words, says: `${says}`, has: has === undefined ? "-" : `${has}`, differs: `${says}` !== `${has}`,
  });
  return {
    differs: code !== 0 || !same(segment.commitment, facts.segmentCommitment),
    commitment: segment?.commitment,
    rows: [
      row("Length in bytes", facts.length, file.length),
      row("SHA-256", hex.encode(facts.sha256), segment && hex.encode(segment.sha256)),
      row("Size of the segment", facts.segmentSize, segment?.size),
      row("Commitment of the segment", hex.encode(facts.segmentCommitment), segment && hex.encode(segment.commitment)),
    ],
  };
}
