// The second tool: two records, how they settle, and the pair where there is one.
import { capital, digits, make, prose, table } from "./elements.mjs";
import { startForm } from "./forms.mjs";
import { paths } from "./paths.mjs";
import { card } from "./verdict.mjs";

// Tone and word for each kind of answer.
const WORDS = {
  same: ["good", "They are the same"],
  collision: ["bad", "Both are accepted, and they differ"],
  apart: ["good", "Both are accepted, of two entries"],
  refused: ["bad", "Refused"],
  unsaid: ["open", "Nothing can be said"],
};

/** Makes the tool work. */
export function startSettle(panel) {
  const [output, more] = [panel.querySelector(".answer"), panel.querySelector(".more")];
  startForm(panel.querySelector("form"), {
    task: "settle",
    needed: { first: "The first record", second: "The second record" },
    output,
    clear() {
      output.replaceChildren();
      more.replaceChildren();
    },
    show(answer) {
      output.replaceChildren(verdict(answer));
      more.replaceChildren(...pair(answer), ...answer.each.map(one));
    },
  });
}

function verdict(answer) {
  const [tone, word] = WORDS[answer.kind];
  const refused = answer.each.map(({ code }) => code !== 0);
  const which = refused[0] && refused[1]
    ? "Both are refused"
    : refused[0] ? "The first record is refused" : "The second record is refused";
  const first = answer.kind === "same" || answer.kind === "collision" ? [answer.meaning] : [];
  return card(tone, answer.kind === "refused" ? which : word, [...first, ...answer.sentences].map(capital), answer);
}

// Two different strings of 64 bytes with one node hash.
function pair({ pair: strings }) {
  if (strings === undefined) return [];
  const halves = ({ which, bytes, sha256 }) => [
    which === "left" ? "first record" : "second record",
    make("code", {}, bytes.slice(0, 64)), make("code", {}, bytes.slice(64)), make("code", {}, sha256),
  ];
  return [
    make("h3", {}, "The pair"),
    make("p", {}, "Two different strings of 64 bytes with one node hash, which is their SHA-256 with the two highest " +
      "bits of its last byte cleared. Such a pair is a collision of the hash. Which of the records is right they do " +
      "not say."),
    make("div", { class: "pair" },
      table("Two strings with one node hash", ["Of the", "First half", "Second half", "SHA-256"], strings.map(halves))),
  ];
}

function one({ name, code, meaning, drawing }, i) {
  const which = ["first", "second"][i];
  return make("details", { class: "record" },
    make("summary", {}, `The ${which} record, ${name}: ${code === 0 ? "accepted" : `refused with code ${code}`}`),
    drawing === undefined ? make("p", {}, prose(meaning)) : [fields(which, drawing.names), paths(drawing)]);
}

function fields(which, { commitment, offset, size, place, number, dealSize }) {
  return make("div", { class: "compare" }, table(`What the ${which} record names`, ["Field", "Value"], [
    ["Commitment of the segment", make("code", {}, digits(commitment))],
    ["Offset of the segment", `${offset}`],
    ["Size of the segment", `${size}`],
    ["Place of the entry", `${place}`],
    ["Number of the deal", `${number}`],
    ["Size of the deal, by its entry path", `${dealSize}`],
  ]));
}
