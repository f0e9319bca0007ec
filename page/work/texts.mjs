// Texts of others in messages: nothing in them turns the direction of writing, breaks a line or hides.

const OBEYED = /[\p{Cc}\u061c\u200e\u200f\u2028-\u202e\u2066-\u2069\ufeff]/gu;
// What is not seen, or is seen as a part of another character.
const UNSEEN = /[\p{C}\p{M}\p{Zl}\p{Zp}]|(?! )\p{Zs}/gu;
const SHORT = { "\0": "\\0", "\n": "\\n", "\r": "\\r", "\t": "\\t" };

function escaped(character) {
  return SHORT[character] ?? `\\u{${character.codePointAt(0).toString(16)}}`;
}

/** The name of a file, as the command line shows it and as a proof has it. */
export function shown(name) {
  return name.replaceAll("\\", "\\\\").replace(OBEYED, escaped);
}

/** A text of a file in quotation marks, and not too long. */
export function quoted(text) {
  const characters = [...text];
  const first = characters.slice(0, 80).join("").replace(/[\\"]/g, "\\$&").replace(UNSEEN, escaped);
  return `"${first}"${characters.length > 80 ? " ..." : ""}`;
}

/** One character, in its quotation marks. */
export function sign(character) {
  return `'${character.replace(/[\\']/g, "\\$&").replace(UNSEEN, escaped)}'`;
}
