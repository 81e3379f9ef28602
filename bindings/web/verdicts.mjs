// Prints the verdicts on each front of the file's first bytes, and on them with each byte changed to every STEPth value, a
// line for each.
//
// usage: node verdicts.mjs MODULE FILE LENGTH STEP
import { readFileSync } from "node:fs";
import { load } from "./twkb.mjs";

const [module, file, length, step] = process.argv.slice(2);
const library = load(readFileSync(module));
const bytes = Uint8Array.from(readFileSync(file)).subarray(0, Number(length));
const lines = [];

function tell(some) {
  const v = library.certify(some);
  lines.push(v.answer === "ok" ? `ok ${v.blobs} ${v.vertices}` : v.answer === "no" ? `no ${v.blob} ${v.offset} ${v.kind}` : "memory");
}

for (let i = 0; i <= bytes.length; i++) tell(bytes.subarray(0, i));
for (let i = 0; i < bytes.length; i++) {
  const old = bytes[i];
  for (let value = i % step; value < 256; value += Number(step)) {
    bytes[i] = value;
    tell(bytes);
  }
  bytes[i] = old;
}
process.stdout.write(lines.join("\n") + "\n");
