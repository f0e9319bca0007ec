// The third tool: a deal, its map and its commitment; then a file, which of the segments is its own, and its proof to
// save.
import { capital, make, spaced } from "./elements.mjs";
import { startForm } from "./forms.mjs";
import { amount, mapOf, markOwn } from "./map.mjs";
import { card } from "./verdict.mjs";

/** Makes the tool work. */
export function startDeal(panel) {
  const [output, found, more] = [".answer", ".found", ".more"].map((name) => panel.querySelector(name));
  const [open, find] = panel.querySelectorAll("form");
  const saved = new Saved();
  startForm(open, {
    task: "open",
    needed: { deal: "The deal" },
    output,
    clear() {
      saved.forget();
      find.hidden = true;
      for (const place of [output, found, more]) place.replaceChildren();
    },
    show(map) {
      output.replaceChildren(summary(map));
      more.replaceChildren(...mapOf(map));
      find.hidden = false;
    },
  });
  startForm(find, {
    task: "find",
    needed: { file: "Your file" },
    output: found,
    clear() {
      saved.forget();
      found.replaceChildren();
      markOwn(panel, undefined);
    },
    show(answer) {
      found.replaceChildren(verdict(answer, saved));
      if (answer.verdict === "yes") markOwn(panel, answer.slot);
    },
  });
}

function summary({ name, size, sound, code, meaning, commitment, stray, free, entries }) {
  const nodes = stray.count === 1 ? "1 node has" : `${stray.count} nodes have`;
  const sentences = [
    `${name} has ${spaced(size)} bytes (${amount(size)}) and ${entries} slots`,
    code === 0
      ? capital(meaning)
      : `${nodes} stray bits, so that it has no commitment, and no record of it can be built`,
    free.largest === 0
      ? "No area is free"
      : `${spaced(free.bytes)} bytes before the index are free; ` +
        `the largest area that finds a place has ${amount(free.largest)}`,
  ];
  const inOrder = sound && code === 0;
  const box = card(inOrder ? "good" : "bad", inOrder ? "In order" : "Not in order", sentences, { code, meaning });
  if (commitment !== undefined) {
    box.append(make("dl", { class: "values" },
      make("dt", {}, "Commitment"), make("dd", {}, make("code", { id: "deal-commitment" }, commitment.hex)),
      make("dt", {}, "Piece CID"), make("dd", {}, make("code", { id: "deal-cid" }, commitment.cid))));
    box.dataset.milliseconds = commitment.milliseconds;
  }
  return box;
}

function verdict(answer, saved) {
  if (answer.verdict === "no") return card("bad", "Not found", [answer.sentence], answer);
  const box = card("good", "This one is yours", [answer.sentence]);
  if (answer.proof === undefined) {
    box.append(make("p", { class: "condition" }, make("strong", {}, "No proof yet: "), `${answer.unproved}.`));
  } else {
    box.append(make("p", {}, saved.link(answer.proof)), make("p", { class: "hint" },
      "It says the commitment that this deal has now. Every booking and every cancellation gives the deal a new one."));
  }
  return box;
}

// The proof that can be saved, held by the page until the next one.
class Saved {
  #url;

  link({ name, text }) {
    this.forget();
    this.#url = URL.createObjectURL(new Blob([text], { type: "application/json" }));
    return make("a", { class: "save", download: name, href: this.#url }, `Save the proof: ${name}`);
  }

  forget() {
    if (this.#url !== undefined) URL.revokeObjectURL(this.#url);
    this.#url = undefined;
  }
}
