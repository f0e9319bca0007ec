// A form that asks the worker: files and fields in, progress on the way, an answer or a fault in words.
import { ask } from "./library.mjs";
import { make } from "./elements.mjs";

// So soon done that a bar would only flicker.
const QUICK = 150;

/** Makes a form ask a question. `needed` names its files, in words; `show` is given the answer, `clear` empties what
 * was shown. */
export function startForm(form, { task, needed, output, clear, show }) {
  const button = form.querySelector("button");
  let changes = 0; // an answer to what the form no longer says is not shown
  const anew = () => {
    changes += 1;
    clear();
    forgive(form);
  };
  form.addEventListener("input", anew);
  form.addEventListener("submit", async (event) => {
    event.preventDefault();
    if (button.getAttribute("aria-disabled") === "true") return;
    anew();
    const missing = Object.keys(needed).find((name) => form.elements[name].files.length === 0);
    if (missing !== undefined) {
      blame(form, output, { field: missing, words: `${needed[missing]} is needed: drop it, or choose it.` });
      return;
    }
    const [asked, progress] = [changes, startProgress(form.closest("section"))];
    button.setAttribute("aria-disabled", "true");
    try {
      const answer = await ask(task, question(form, needed), progress.report);
      if (asked === changes) show(answer);
      output.scrollIntoView({ block: "nearest" });
    } catch (fault) {
      if (fault.words === undefined) throw fault;
      if (asked === changes) blame(form, output, fault);
    } finally {
      progress.end();
      button.removeAttribute("aria-disabled");
    }
  });
}

function question(form, needed) {
  const files = Object.keys(needed).map((name) => [name, form.elements[name].files[0]]);
  const fields = [...form.querySelectorAll(".field input")].map((input) => [input.name, input.value]);
  return { ...Object.fromEntries(files), given: Object.fromEntries(fields) };
}

// Says what is wrong, at the field where it is one.
function blame(form, output, { field, words }) {
  const id = `${form.closest("section").id}-fault`;
  output.replaceChildren(make("p", { class: "fault", id }, words));
  const input = field && form.elements[field];
  if (!input) return;
  input.setAttribute("aria-invalid", "true");
  input.setAttribute("aria-errormessage", id);
  input.focus();
}

function forgive(form) {
  for (const input of form.querySelectorAll("[aria-invalid]")) {
    input.removeAttribute("aria-invalid");
    input.removeAttribute("aria-errormessage");
  }
}

function startProgress(panel) {
  const place = panel.querySelector(".progress");
  const [bar, words] = place.children;
  const timer = setTimeout(() => (place.hidden = false), QUICK);
  panel.setAttribute("aria-busy", "true");
  return {
    report(share, text) {
      bar.value = share;
      words.textContent = `${text} \u2026`;
    },
    end() {
      clearTimeout(timer);
      place.hidden = true;
      panel.removeAttribute("aria-busy");
    },
  };
}
