// The two paths of a record, drawn from the entry and the segment up to the commitment. Where a path does not lead
// there, no single node of it can be called wrong: marked is that the node reached is another one than the commitment.
import { digits, draw, make, prose, spaced, start, table } from "./elements.mjs";

const [WIDTH, ROW, BOX, SIDE] = [320, 46, 104, 84];
const MIDDLE = WIDTH / 2;
const SIDES = { left: SIDE / 2 + 6, right: WIDTH - SIDE / 2 - 6 };
// No path that is accepted is longer.
const LONGEST = 30;
// The steps of a judgement that say nothing of what is drawn.
const BEFORE = ["members", "terms", "number", "fields"];

const equal = (a, b) => a !== undefined && digits(a) === digits(b);

/** Both paths of a drawing, each with its table. `file` is what the file has, `failed` the step at which the check
 * stopped. */
export function paths({ names, segment, entry, commitment }, { file, failed } = {}) {
  return make("div", { class: "paths" },
    BEFORE.includes(failed) &&
      make("p", { class: "hint" }, "The judgement ended before the paths; they are drawn as the record has them."),
    path("Segment path", "the segment's commitment", segment, commitment, file),
    path("Entry path", `the hash of the entry at place ${names.place}`, entry, commitment));
}

function path(title, from, way, commitment, file) {
  const leads = equal(way.reached, commitment);
  const differs = file !== undefined && file.differs;
  const words = told(from, way, leads, commitment);
  return make("figure", { class: leads ? "way" : "way bad" },
    make("figcaption", {}, make("strong", {}, title), make("p", {}, prose(words))),
    way.levels.length > LONGEST
      ? make("p", { class: "hint" },
        `It has ${way.levels.length} nodes and is not drawn: no record that is accepted has so many.`)
      : drawing(`${title}. ${words}`, way, commitment, { leads, from, file: differs ? file : undefined }),
    make("details", {}, make("summary", {}, `All nodes of the ${title.toLowerCase()}`), nodes(title, way)));
}

// What there is to see, in a sentence.
function told(from, { levels, reached }, leads, commitment) {
  const stray = levels.findIndex(isCut);
  if (stray >= 0) {
    return `From ${from} up; at step ${stray + 1} of ${levels.length} a node has stray bits, ` +
      "and what lies above it is not known.";
  }
  if (reached === undefined) {
    return "The commitment in the entry has stray bits: it has no hash, and where the path leads is not known.";
  }
  return leads
    ? `From ${from} in ${levels.length} steps to the deal's commitment.`
    : `From ${from} in ${levels.length} steps to ${digits(reached)}, ` +
      `which is not the deal's commitment ${digits(commitment)}. Any node of the path may be the wrong one.`;
}

// Rows from the top: the commitment, the node that is reached, and the levels down to the start.
function drawing(label, { levels, reached }, commitment, { leads, from, file }) {
  const row = (i) => 32 + ROW * (levels.length - i + 1);
  const end = row(0) + (levels.slice(0, 1).some(isCut) ? 40 : 26);
  const height = end + (file === undefined ? 10 : ROW + 16);
  const parts = levels.map((level, i) => step(level, row(i), row(i + 1)));
  const [kind, text] = reached === undefined ? ["unknown", "?"] : [leads ? "on good" : "on bad", start(reached)];
  return draw("svg", { viewBox: `0 0 ${WIDTH} ${height}`, role: "img", "aria-label": label, class: "drawing" },
    parts,
    box(MIDDLE, row(levels.length + 1), 200, "root", start(commitment, 8)),
    note(MIDDLE, row(levels.length + 1) - 22, "the deal's commitment"),
    sign(MIDDLE, (row(levels.length + 1) + row(levels.length)) / 2,
      reached === undefined ? "?" : leads ? "=" : "\u2260"),
    box(MIDDLE, row(levels.length), BOX, kind, text),
    note(MIDDLE, end, from),
    file === undefined ? [] : [
      sign(MIDDLE, end + 16, "\u2260"),
      box(MIDDLE, end + ROW - 8, 200, "on bad",
        file.commitment ? `your file: ${start(file.commitment)}` : "your file has none"),
    ]);
}

// A node, its sibling, and the lines to the node above them.
function step(level, y, above) {
  const { node, sibling, side, stray } = level;
  const x = SIDES[side];
  const line = (plain) => (isCut(level) ? "cut" : node === undefined ? "unknown" : plain);
  return [
    draw("line", { x1: MIDDLE, y1: y - 12, x2: MIDDLE, y2: above + 12, class: line("on") }),
    draw("line", { x1: x, y1: y - 10, x2: MIDDLE, y2: above + 12, class: line("beside") }),
    box(x, y, SIDE, stray.sibling ? "beside bad" : "beside", start(sibling), 20),
    box(MIDDLE, y, BOX, node === undefined ? "unknown" : stray.node ? "on bad" : "on",
      node === undefined ? "?" : start(node)),
    stray.sibling ? note(x, y + 22, "stray bits", "bad") : [],
    stray.node ? note(MIDDLE, y + 22, "stray bits", "bad") : [],
  ];
}

// Whether the way ends at a level.
function isCut({ stray }) {
  return stray.node || stray.sibling;
}

function box(x, y, width, kind, text, height = 24) {
  return draw("g", { class: `node ${kind}` },
    draw("rect", { x: x - width / 2, y: y - height / 2, width, height, rx: 3 }),
    draw("text", { x, y: y + 4, "text-anchor": "middle" }, text));
}

function note(x, y, text, kind = "") {
  return draw("text", { x, y: y + 4, "text-anchor": "middle", class: `note ${kind}` }, text);
}

function sign(x, y, text) {
  return draw("text", { x, y: y + 6, "text-anchor": "middle", class: text === "=" ? "sign good" : "sign bad" }, text);
}

function nodes(title, { levels, reached }) {
  const known = (node) => (node === undefined ? "not known" : make("code", {}, digits(node)));
  const marked = (node, stray) => [known(node), stray ? " \u2717 stray bits" : ""];
  const bytes = ({ from, to }) => make("span", { class: "whole" }, `${spaced(from)} to ${spaced(to)}`);
  const rows = levels.map((level, i) => [
    `${i + 1}`, bytes(level), marked(level.node, level.stray.node), level.side,
    marked(level.sibling, level.stray.sibling),
  ]);
  rows.push(["reached", "", known(reached), "", ""]);
  return table(`${title}, from the bottom`, ["Step", "Bytes of the deal", "Node", "Sibling stands", "Sibling"], rows);
}
