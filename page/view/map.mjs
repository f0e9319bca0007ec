// The map of a deal: its bytes to scale, its areas in order, its index, and a table of its slots.
import { draw, make, prose, spaced, table } from "./elements.mjs";

const UNITS = [[2 ** 20, "MiB"], [2 ** 10, "KiB"], [1, "bytes"]];
const WIDTH = 1000;

/** A number of bytes, in the largest unit of which it is a multiple. */
export function amount(bytes) {
  const [unit, name] = UNITS.find(([unit]) => bytes >= unit && bytes % unit === 0) ?? UNITS.at(-1);
  return `${spaced(bytes / unit)} ${name}`;
}

// The word of a state as a class.
const kind = (state) => state.replaceAll(" ", "-");

/** All of the map. */
export function mapOf(map) {
  return [
    make("h3", {}, "Its map"),
    scale(map),
    make("p", { class: "hint" },
      "To scale above, and below in order: every area with the slot of its entry, and the room between them."),
    blocks(map),
    make("h3", {}, "Its index"),
    index(map),
    slots(map),
    ...stray(map),
  ];
}

// The whole deal as a bar. Everything in it is at least as wide as can be seen.
function scale({ regions, size, stray: { told, count } }) {
  const x = (at) => (at / size) * WIDTH;
  const parts = regions.map(({ kind: what, state, from, to }) => draw("rect", {
    x: Math.min(x(from), WIDTH - 4), y: 0, width: Math.max(x(to) - x(from), 4), height: 28,
    class: what === "area" ? kind(state) : what,
  }));
  // Free room first, so that what is small is not hidden by it.
  parts.sort((a, b) => (b.getAttribute("class") === "free") - (a.getAttribute("class") === "free"));
  const ticks = told.map(({ offset }) => draw("line", { x1: x(offset), x2: x(offset), y1: 0, y2: 40, class: "tick" }));
  const marked = count === 0 ? "" : `, with marks where ${count} nodes have stray bits`;
  const label = `The ${amount(size)} of the deal to scale${marked}. The list and the table below say the same.`;
  return draw("svg",
    { viewBox: `0 0 ${WIDTH} 40`, preserveAspectRatio: "none", role: "img", "aria-label": label, class: "scale" },
    parts, ticks);
}

function blocks({ regions }) {
  return make("ol", { class: "blocks" }, regions.map((region) => {
    const block = make("li",
      { class: region.kind === "area" ? kind(region.state) : region.kind, "data-slot": region.slot },
      make("strong", {}, { area: `slot ${region.slot}`, free: "free", index: "index" }[region.kind]),
      region.kind === "area" && make("span", {}, region.state),
      make("span", {}, amount(region.to - region.from)),
      make("span", { class: "from" }, `from byte ${spaced(region.from)}`),
      region.stray > 0 && make("span", { class: "stray" }, `\u2717 stray bits: ${region.stray}`));
    block.style.flexGrow = `${Math.log2(region.to - region.from)}`;
    return block;
  }));
}

function index({ slots: all, counts, start }) {
  const counted = counts.filter(([, count]) => count > 0).map(([words, count]) => `${count} ${words}`);
  return make("div", {},
    make("p", {}, `${all.length} slots of 64 bytes from byte ${spaced(start)}: ${counted.join(", ")}.`),
    make("ol", { class: "cells" }, all.map(({ number, state }) =>
      make("li", { class: kind(state), "data-slot": `${number}` },
        `${number}`, make("span", { class: "unseen" }, ` ${state}`)))));
}

// The slots that are not blank, one a row.
function slots({ slots: all }) {
  const shown = all.filter(({ state }) => state !== "blank");
  if (shown.length === 0) return make("p", {}, "All slots are blank.");
  return table("The slots that are not blank", ["Slot", "Place", "State", "Offset", "Size", "Commitment"],
    shown.map(({ number, place, state, entry, overlaps }) => [
      `${number}`, `${place}`,
      [
        make("span", { class: `word ${kind(state)}` }, state),
        overlaps === undefined ? "" : ` (its area is also that of slot ${overlaps})`,
      ],
      entry === undefined ? "-" : `${entry.offset}`, entry === undefined ? "-" : `${entry.size}`,
      entry === undefined ? "-" : make("code", {}, entry.commitment),
    ]),
    (i) => ({ "data-slot": `${shown[i].number}` }));
}

function stray({ stray: { count, told } }) {
  if (count === 0) return [];
  return [
    make("h3", {}, "Stray bits"),
    make("p", {},
      "A node has 32 bytes, and the two highest bits of the last are zero in every deal. They are set here:"),
    make("ul", { class: "strays" }, told.map(({ words }) => make("li", {}, prose(words)))),
    count > told.length ? make("p", {}, `And ${count - told.length} more.`) : "",
  ];
}

/** Marks a slot as the reader's own; none where there is none. */
export function markOwn(panel, slot) {
  for (const one of panel.querySelectorAll(".own")) {
    one.classList.remove("own");
    one.querySelector(".yours")?.remove();
  }
  if (slot === undefined) return;
  for (const one of panel.querySelectorAll(`[data-slot="${slot}"]`)) {
    one.classList.add("own");
    (one.tagName === "TR" ? one.cells[2] : one).append(make("span", { class: "yours" }, " yours"));
  }
}
