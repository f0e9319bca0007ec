// Answers questions by the code of the page's worker, in node: one JSON object a line in, one out. Bytes are in base64.
//
//     node tests/page_calls.mjs MODULE < QUESTIONS
//
// A question has a task, verify or settle, its files as {name, bytes} and what is given as texts.
import { readFileSync } from "node:fs";
import { load } from "../javascript/vizhuthamen.mjs";
import { settle } from "../page/work/settle.mjs";
import { verify } from "../page/work/verify.mjs";

const TASKS = { verify, settle };
const vz = await load(readFileSync(process.argv[2]));

// What a page is given of a file.
function dropped({ name, bytes }) {
  const content = Buffer.from(bytes, "base64");
  return { name, size: content.length, arrayBuffer: async () => Uint8Array.from(content).buffer };
}

async function answered({ task, files, given }) {
  const question = Object.fromEntries(Object.entries(files).map(([name, file]) => [name, dropped(file)]));
  try {
    const { drawing, each, compared, ...words } = await TASKS[task](vz, { ...question, given }, () => {});
    return words;
  } catch (error) {
    return { fault: error.message, field: error.field };
  }
}

for (const line of readFileSync(0, "utf-8").split("\n").filter((line) => line !== "")) {
  console.log(JSON.stringify(await answered(JSON.parse(line))));
}
