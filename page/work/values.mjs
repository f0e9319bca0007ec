// Reads JSON (RFC 8259), as far as the files of the command line need it, and says where a text is none.
import { quoted, sign } from "./texts.mjs";

const ESCAPES = { '"': '"', "\\": "\\", "/": "/", b: "\b", f: "\f", n: "\n", r: "\r", t: "\t" };
const WORDS = [["null", null], ["true", true], ["false", false]];
/** How deep lists and objects may lie in one another. */
const DEEPEST = 16;

/** Why a text is no value: line and column, and what stands there. */
export class Fault extends Error {
  constructor(before, why) {
    const lines = before.split("\n");
    super(`line ${lines.length}, column ${[...lines.at(-1)].length + 1}: ${why}`);
    this.name = "Fault";
  }
}

/** The value that a text is: null, a boolean, a BigInt (of numbers there are whole ones from 0 on alone), a text, an
 * array, or a Map of the members of an object in their order, of which no name stands twice. */
export function readValue(bytes) {
  return new Reader(decoded(bytes)).whole();
}

function decoded(bytes) {
  const decoder = () => new TextDecoder("utf-8", { fatal: true, ignoreBOM: true });
  try {
    return decoder().decode(bytes);
  } catch {
    // The longest start that is text; the byte after it is not.
    const stream = decoder();
    let before = "";
    for (const byte of bytes) {
      try {
        before += stream.decode(Uint8Array.of(byte), { stream: true });
      } catch {
        break;
      }
    }
    throw new Fault(before, "a byte that is no text (UTF-8) stands here");
  }
}

// A text, and the character that is read next.
class Reader {
  #text;
  #at = 0;

  constructor(text) {
    this.#text = text;
  }

  whole() {
    const value = this.#value("a JSON value", 0);
    this.#spaces();
    if (this.#peek() !== undefined) this.#wrong("something follows the end of the value");
    return value;
  }

  #value(what, depth) {
    this.#spaces();
    if (depth > DEEPEST) this.#wrong(`lists and objects lie more than ${DEEPEST} deep`);
    const first = this.#peek();
    if (first === '"') return this.#string(what);
    if (first === "[") return this.#list(depth);
    if (first === "{") return this.#object(depth);
    return first !== undefined && /[-0-9]/.test(first) ? this.#number() : this.#word(what);
  }

  #word(what) {
    const found = WORDS.find(([word]) => this.#text.startsWith(word, this.#at));
    if (found === undefined) this.#missing(what);
    this.#at += found[0].length;
    return found[1];
  }

  #number() {
    const [, digits, after] = /^([0-9]*)(.?)/s.exec(this.#text.slice(this.#at));
    const whole = /^(0|[1-9][0-9]*)$/.test(digits) && !/[.eE]/.test(after) && BigInt(digits) < 2n ** 64n;
    if (!whole) this.#wrong("the number here is no whole one from 0 to 2^64 - 1");
    this.#at += digits.length;
    return BigInt(digits);
  }

  #list(depth) {
    const items = [];
    this.#needs("[");
    if (this.#takes("]")) return items;
    do items.push(this.#value("an item of a list", depth + 1));
    while (this.#goesOn("]"));
    return items;
  }

  #object(depth) {
    const members = new Map();
    this.#needs("{");
    if (this.#takes("}")) return members;
    do {
      this.#spaces();
      const start = this.#at;
      const name = this.#string("the name of a member");
      if (members.has(name)) this.#wrong(`the member ${quoted(name)} stands here a second time`, start);
      this.#needs(":");
      members.set(name, this.#value(`the value of ${quoted(name)}`, depth + 1));
    } while (this.#goesOn("}"));
    return members;
  }

  #wrong(why, at = this.#at) {
    throw new Fault(this.#text.slice(0, at), why);
  }

  // What was needed is not there.
  #missing(what) {
    const found = this.#peek();
    if (found === undefined) this.#wrong(`the text ends where ${what} is needed: it was cut`);
    this.#wrong(`${sign(found)} stands where ${what} is needed`);
  }

  #peek() {
    const code = this.#text.codePointAt(this.#at);
    return code === undefined ? undefined : String.fromCodePoint(code);
  }

  #next() {
    const next = this.#peek();
    this.#at += next?.length ?? 0;
    return next;
  }

  #spaces() {
    while (" \t\n\r".includes(this.#text[this.#at] ?? "x")) this.#at += 1;
  }

  // Takes a sign, after spaces, where it is the next one.
  #takes(next) {
    this.#spaces();
    const isNext = this.#peek() === next;
    if (isNext) this.#at += 1;
    return isNext;
  }

  // Takes a sign that must be the next one.
  #needs(next) {
    if (!this.#takes(next)) this.#missing(sign(next));
  }

  // Whether another item follows in a list or an object, or it ends with this sign.
  #goesOn(end) {
    if (this.#takes(",")) return true;
    if (!this.#takes(end)) this.#missing(`',' or ${sign(end)}`);
    return false;
  }

  #string(what) {
    if (this.#peek() !== '"') this.#missing(what);
    this.#at += 1;
    for (let text = ""; ; ) {
      const start = this.#at;
      const character = this.#next();
      if (character === undefined) this.#missing("the end of a text");
      if (character === '"') return text;
      if (character < " ") this.#wrong("a line end or another control character stands inside of a text", start);
      text += character === "\\" ? this.#escaped(start) : character;
    }
  }

  // The character that stands after a backslash.
  #escaped(start) {
    const letter = this.#next();
    const character = letter === "u" ? this.#unicode() : ESCAPES[letter];
    if (character === undefined) this.#wrong("a backslash stands here with nothing after it that JSON knows", start);
    return character;
  }

  // The character of four hex digits, or of two times four (UTF-16).
  #unicode() {
    const first = this.#digits();
    const high = first !== undefined && first >= 0xd800 && first < 0xdc00;
    if (high && this.#text.startsWith("\\u", this.#at)) {
      this.#at += 2;
      const second = this.#digits();
      return second >= 0xdc00 && second < 0xe000 ? String.fromCharCode(first, second) : undefined;
    }
    return first === undefined || (first >= 0xd800 && first < 0xe000) ? undefined : String.fromCharCode(first);
  }

  #digits() {
    const digits = this.#text.slice(this.#at, this.#at + 4);
    if (!/^[0-9a-fA-F]{4}$/.test(digits)) return undefined;
    this.#at += 4;
    return parseInt(digits, 16);
  }
}
