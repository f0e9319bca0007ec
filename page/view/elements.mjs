// Elements of the page, made by script. Texts of files go in as texts, never as markup.

const SVG = "http://www.w3.org/2000/svg";

function filled(element, attributes, children) {
  for (const [name, value] of Object.entries(attributes)) {
    if (value !== undefined && value !== false) element.setAttribute(name, value === true ? "" : value);
  }
  element.append(...children.flat(Infinity).filter((child) => child !== undefined && child !== false));
  return element;
}

/** An element with attributes and children. */
export function make(tag, attributes = {}, ...children) {
  return filled(document.createElement(tag), attributes, children);
}

/** The same for a drawing. */
export function draw(tag, attributes = {}, ...children) {
  return filled(document.createElementNS(SVG, tag), attributes, children);
}

/** A text in which long runs of hex digits and piece CIDs are set as code, so that they may break anywhere. */
export function prose(text) {
  return text.split(/([0-9a-f]{32,}|baga6ea4seaq[a-z2-7]{20,})/)
    .map((part, i) => (i % 2 === 1 ? make("code", {}, part) : part));
}

/** A text with a capital letter first. */
export function capital(text) {
  return text.charAt(0).toUpperCase() + text.slice(1);
}

/** A number with thin spaces between its thousands. */
export function spaced(number) {
  return `${number}`.replace(/\B(?=(\d{3})+$)/g, "\u202f");
}

/** Bytes as hex digits. */
export function digits(bytes) {
  return Array.from(bytes, (byte) => byte.toString(16).padStart(2, "0")).join("");
}

/** The first bytes as hex digits, and dots for the rest. */
export function start(bytes, count = 4) {
  return `${digits(bytes.slice(0, count))}\u2026`;
}

/** A table with a caption, headers for its columns, and its first column as headers of the rows. */
export function table(caption, columns, rows, attributes = () => ({})) {
  const cell = (value, i) => (i === 0 ? make("th", { scope: "row" }, value) : make("td", {}, value));
  return make("div", { class: "scroll", tabindex: "0", role: "region", "aria-label": caption },
    make("table", {},
      make("caption", {}, caption),
      make("thead", {}, make("tr", {}, columns.map((name) => make("th", { scope: "col" }, name)))),
      make("tbody", {}, rows.map((row, i) => make("tr", attributes(i), row.map(cell))))));
}
