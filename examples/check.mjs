// Checks a record: node examples/check.mjs COMMITMENT SIZE NUMBER RECORD-FILE
import { readFileSync } from "node:fs";
import { hex, load, meaning, Refusal } from "../javascript/vizhuthamen.mjs";

const [commitment, size, number, record] = process.argv.slice(2);
const vz = await load(new URL("../target/lib/vizhuthamen.wasm", import.meta.url));
let code = 0;
try {
  vz.check(hex.decode(commitment), BigInt(size), BigInt(number), readFileSync(record));
} catch (refusal) {
  if (!(refusal instanceof Refusal)) throw refusal;
  code = refusal.code;
}
console.log(`code ${code}: ${meaning(code)}`);
process.exitCode = code;
