// The first tool: a proof file and a file, a verdict, and how it was come to.
import { make, prose, table } from "./elements.mjs";
import { startForm } from "./forms.mjs";
import { paths } from "./paths.mjs";
import { card } from "./verdict.mjs";

const STATES = { passed: "\u2713 holds", failed: "\u2717 fails", open: "\u2013 not reached" };

/** Makes the tool work. */
export function startVerify(panel) {
  const [output, more] = [panel.querySelector(".answer"), panel.querySelector(".more")];
  startForm(panel.querySelector("form"), {
    task: "verify",
    needed: { proof: "The proof file", file: "Your file" },
    output,
    clear() {
      output.replaceChildren();
      more.replaceChildren();
    },
    show(answer) {
      output.replaceChildren(verdict(answer));
      more.replaceChildren(...howItWasJudged(answer));
    },
  });
}

function verdict(answer) {
  if (answer.verdict === "no") return card("bad", "No", [answer.sentence], answer);
  return answer.condition === undefined
    ? card("good", "Yes", [answer.sentence])
    : card("open", "Yes, on a condition", [answer.sentence], answer);
}

function howItWasJudged({ steps, compared, drawing, failed }) {
  return [
    make("h3", {}, "How it was judged"),
    make("ol", { class: "steps" }, steps.map(({ words, state }) =>
      make("li", { class: state }, make("span", { class: "state" }, STATES[state]), " ", words))),
    make("h3", {}, "The file, and what the proof says of it"),
    make("div", { class: "compare" }, table("The file beside the proof",
      ["Of the file", "The proof says", "The file has"],
      compared.rows.map(({ words, says, has, differs }) => [[words, comparison(differs)], prose(says), prose(has)]),
      (i) => ({ class: compared.rows[i].differs ? "bad" : undefined }))),
    ...(drawing === undefined
      ? []
      : [make("h3", {}, "The two paths to the commitment"), paths(drawing, { file: compared, failed })]),
  ];
}

function comparison(differs) {
  return make("span", { class: differs ? "differs" : "same" }, differs ? "\u2717 differs" : "\u2713 the same");
}
