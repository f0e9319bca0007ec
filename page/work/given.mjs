// What the reader knows of a deal from elsewhere, as he has typed it.
import { cid, hex, NotAPieceCid } from "../../javascript/vizhuthamen.mjs";
import { NotReadable } from "./faults.mjs";
import { decimal } from "./proof.mjs";
import { shown } from "./texts.mjs";

// Texts are pasted with spaces and line ends around and within them.
function typed(text) {
  return (text ?? "").replace(/\s/g, "");
}

function commitment(text) {
  try {
    return hex.decode(text) ?? cid.decode(text);
  } catch (error) {
    if (error instanceof NotAPieceCid) {
      throw new NotReadable("commitment", `no commitment in hex, and no piece CID (${error.message}): ${shown(text)}`);
    }
    throw error;
  }
}

function number(field, text) {
  const number = decimal(text);
  if (number === undefined) throw new NotReadable(field, `not a decimal number below 2^64: ${shown(text)}`);
  return number;
}

/** Commitment (hex or piece CID), size and number of a deal; undefined where nothing was typed. */
export function readGiven(texts) {
  const read = (name, reader) => (typed(texts[name]) === "" ? undefined : reader(typed(texts[name])));
  return {
    commitment: read("commitment", commitment),
    size: read("size", (text) => number("size", text)),
    number: read("number", (text) => number("number", text)),
  };
}

/** What an answer rests on where something was not given: the reader must know it from elsewhere. */
export function condition(given, commitment, source) {
  const names = ["commitment", "size", "number"].filter((name) => given[name] === undefined);
  if (names.length === 0) return undefined;
  let [what, must] = [`the deal's ${names.join(" and ")} were`, "they must be those"];
  if (names[0] === "commitment") {
    [what, must] = [
      `this holds for the deal whose commitment is ${hex.encode(commitment)}; that commitment was`,
      "it must be the one",
    ];
  } else if (names.length === 1) {
    [what, must] = [`the deal's ${names[0]} was`, "it must be the one"];
  }
  return `${what} read from ${source}, and anyone can write such a file: ` +
    `${must} that you know from a source that you trust, such as the contract or the ledger that has the deal; ` +
    `give what you know from there above: ${names.join(", ")}`;
}
