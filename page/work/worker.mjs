// The worker: it has the library, and answers one question after the other, so that the page never waits.
import { load } from "../../javascript/vizhuthamen.mjs";
import { NotReadable, NotUsable } from "./faults.mjs";
import { locate } from "./locate.mjs";
import { settle } from "./settle.mjs";
import { readDeal, survey } from "./survey.mjs";
import { verify } from "./verify.mjs";

let library;
let deal; // the deal that was opened last, with its map

const TASKS = {
  verify,
  settle,
  async open(vz, { deal: dropped }, report) {
    deal = undefined;
    report(0, "reading");
    const read = await readDeal(vz, dropped);
    const map = survey(vz, read, report);
    deal = { ...read, map };
    return map;
  },
  async find(vz, question, report) {
    if (deal === undefined) throw new NotUsable("the deal is no longer at hand: show it once more");
    return locate(vz, deal, deal.map, question, report);
  },
};

async function answered({ id, task, question }) {
  const report = (share, words) => postMessage({ id, share, words });
  try {
    return { id, answer: await TASKS[task](await library, question, report) };
  } catch (error) {
    return { id, fault: told(error) };
  }
}

// What went wrong, in words.
function told(error) {
  if (error instanceof NotReadable) return { field: error.field, words: error.message };
  if (error instanceof NotUsable) return { words: error.message };
  if (error instanceof DOMException) return { words: `a file cannot be read: ${error.message}` };
  return { words: `this could not be done: ${error.message}` };
}

addEventListener("message", async ({ data }) => {
  if (data.module !== undefined) library = load(data.module);
  else postMessage(await answered(data));
});
