// Settling two records of one deal, in words for whoever has to judge them.
import { hex, MAX_RECORD, meaning, Refusal } from "../../javascript/vizhuthamen.mjs";
import { NotReadable, NotUsable } from "./faults.mjs";
import { condition, readGiven } from "./given.mjs";
import { isProof, parseProof } from "./proof.mjs";
import { reason } from "./reasons.mjs";
import { codeOf, named, ways } from "./record.mjs";
import { readFile } from "./segments.mjs";
import { shown } from "./texts.mjs";

/** Settles two records, each a record's own file or a proof file that has it. */
export async function settle(vz, { first, second, given: texts }, report) {
  const given = readGiven(texts);
  report(0.2, "reading");
  const records = [await readRecord(first), await readRecord(second)];
  report(0.5, "settling");
  const asked = askedFor(vz, given, records);
  const { commitment, size, number } = asked.terms;
  const each = records.map((record, i) => checked(vz, asked.terms, record, ["first", "second"][i]));
  let settled;
  const code = codeOf(() =>
    (settled = vz.settleRecords(commitment, size, number, records[0].record, records[1].record)));
  return { ...answer(vz, settled, code, each, asked.terms), condition: asked.condition, each };
}

async function readRecord(dropped) {
  const file = await readFile(dropped, shown(dropped.name));
  if (file.bytes === undefined) {
    throw new NotUsable(`${file.name} is no record: it has ${file.length} bytes, ` +
      `and the longest record has ${MAX_RECORD}`);
  }
  const facts = isProof(file.bytes) ? parseProof(file.bytes).facts : undefined;
  return { name: file.name, record: facts?.record ?? file.bytes, facts };
}

// What the records are checked for. What is not given is read from the first of them that says it.
function askedFor(vz, given, records) {
  const source = records.find(({ facts }) => facts !== undefined);
  if (given.commitment === undefined && source === undefined) {
    throw new NotReadable("commitment", "the deal's commitment is needed: records alone do not say it");
  }
  const from = source ?? records.find(({ record }) => named(vz, record) !== undefined) ?? records[0];
  const names = named(vz, from.record);
  const terms = {
    commitment: given.commitment ?? source.facts.dealCommitment,
    size: given.size ?? names?.dealSize ?? 0n,
    number: given.number ?? names?.number ?? 0n,
  };
  return { terms, condition: condition(given, terms.commitment, from.name) };
}

// One of two records: whether it is accepted, in a sentence, and its two ways.
function checked(vz, terms, { name, record }, which) {
  const code = codeOf(() => vz.check(terms.commitment, terms.size, terms.number, record));
  const names = named(vz, record);
  const place = names === undefined ? "" : `, as that of the entry at place ${names.place}`;
  return {
    name,
    code,
    meaning: code === 0 ? "the record is accepted" : meaning(code),
    sentence: code === 0
      ? `the ${which} record, ${name}, is accepted${place}`
      : `the ${which} record, ${name}, is refused with code ${code}: ${reason(vz, code, terms, record)}`,
    drawing: names && { names, ...ways(vz, names), commitment: terms.commitment },
  };
}

function answer(vz, settled, code, each, terms) {
  const sentences = each.map(({ sentence }) => sentence);
  if (settled?.kind === "same") return { kind: "same", code, meaning: "the two records are the same", sentences };
  if (settled?.kind === "collision") {
    const hash = (bytes) => hex.encode(vz.sha256(bytes));
    const { left, right } = settled;
    return {
      kind: "collision", code: Refusal.COLLISION, meaning: meaning(Refusal.COLLISION), sentences,
      pair: [["left", left], ["right", right]].map(([which, bytes]) =>
        ({ which, bytes: hex.encode(bytes), sha256: hash(bytes) })),
    };
  }
  if (code === Refusal.COMMITMENT_LENGTH || code === Refusal.SIZE) {
    const why = reason(vz, code, terms, new Uint8Array());
    return { kind: "unsaid", code, meaning: meaning(code), sentences: [`nothing is said of the records: ${why}`] };
  }
  const both = "both records are accepted: they are of two different entries, and neither speaks against the other";
  const accepted = each.every((record) => record.code === 0);
  return {
    kind: accepted ? "apart" : "refused", code, meaning: meaning(code),
    sentences: accepted ? [...sentences, both] : sentences,
  };
}
