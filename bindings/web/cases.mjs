// Takes the words of the program twkb_tool, and prints what it prints on standard output, by the module. It scans for one
// window. A check with IDS has room for only that many ids of a list. Besides, `vertices FILE` prints X and Y of each vertex
// in units, drawn at once and then blob by blob.
//
// usage: node cases.mjs MODULE check [--tight] FILE [IDS] | list FILE | scan FILE WINDOW | vertices FILE
import { readFileSync } from "node:fs";
import { load } from "./twkb.mjs";

const TYPES = ["", "point", "linestring", "polygon", "multipoint", "multilinestring", "multipolygon", "geometrycollection"];
const yesNo = (is) => (is ? "yes" : "no");
const [module, asked, ...rest] = process.argv.slice(2);
const library = load(readFileSync(module));

function fault(status, why) {
  console.error(`cases: ${why}`);
  process.exit(status);
}

function print(lines) {
  process.stdout.write(lines.map((line) => `${line}\n`).join(""));
}

function lineOfRow(row) {
  const { blob, offset, bytes, precision, vertices } = row;
  const flags = `size=${yesNo(row.hasSize)} box=${yesNo(row.hasBox)}`;
  return `blob=${blob} offset=${offset} bytes=${bytes} type=${TYPES[row.kind]} precision=${precision} vertices=${vertices} ${flags}`;
}

function linesOfScan(layer) {
  const { count, read, hits } = library.scan(layer.blobs);
  return [...hits.map((hit) => `hit blob=${hit.blob} offset=${hit.offset}`), `hits=${count} read=${read} of=${layer.length}`];
}

function linesOfVertices(layer) {
  const text = ([x, y]) => `${x} ${y}`;
  const lines = library.draw(layer.vertices).points.map(text);
  const { rows } = library.list(layer.blobs);
  for (const row of rows) {
    library.take(row.offset, row.bytes, 1, row.vertices);
    lines.push(...library.draw(row.vertices).points.map(text));
  }
  return lines;
}

const words = rest.filter((word) => word !== "--tight");
const windows = asked === "scan" ? words.splice(1) : [];
if (windows.length > 1) fault(2, "one window");
const bytes = readFileSync(words[0]);
const places = asked === "check" && words.length > 1 ? Number(words[1]) : bytes.length;
const verdict = library.certify(bytes, rest.includes("--tight"), places);
if (verdict.answer === "memory") fault(3, "out of memory");
for (const window of windows) {
  const answer = library.parse(window);
  if (answer > 0) fault(2, `window: ${answer === 2 ? "lower bound above upper bound" : "not of the form"}`);
}
if (verdict.answer === "no") {
  print([`no blob=${verdict.blob} offset=${verdict.offset} kind=${verdict.kind}`]);
  process.exitCode = 1;
} else if (asked === "list") print(library.list(verdict.blobs).rows.map(lineOfRow));
else if (asked === "scan") print(linesOfScan(verdict));
else if (asked === "vertices") print(linesOfVertices(verdict));
else print([`ok blobs=${verdict.blobs} vertices=${verdict.vertices}`]);
