// A verdict: a word, a sentence with its reason, and what it rests on.
import { make, prose } from "./elements.mjs";

const MARKS = { good: "\u2713", bad: "\u2717", open: "!" };

/** A card with a word in large letters, sentences, and, of a refusal, its code. */
export function card(tone, word, sentences, { code, meaning, condition } = {}) {
  return make("div", { class: `card ${tone}` },
    make("h3", {}, make("span", { class: "mark", "aria-hidden": "true" }, MARKS[tone]), ` ${word}`),
    sentences.map((words) => make("p", {}, prose(`${words}.`))),
    code !== undefined && code !== 0 && make("p", { class: "code-line" }, `code ${code}: ${meaning}`),
    condition !== undefined &&
      make("p", { class: "condition" }, make("strong", {}, "Condition: "), prose(`${condition}.`)));
}
