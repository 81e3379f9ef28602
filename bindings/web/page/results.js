// What the page says of a certified layer: what a scan found and saved, how tight its boxes are, and what there is in it.
import { $, element, withCode } from "./dom.js";
import { AXES, TYPES } from "./format.js";
import { many, number, ofUnits } from "./numbers.js";
import { HEADER, HIT, HOPPED, NAMES, READ } from "./states.js";
import { line, share, STATE_WORDS } from "./texts.js";

// What was read is summed up before what was not.
const READS = [HIT, READ, HEADER];

// Nothing of an earlier layer is left.
export function clearResults() {
  for (const id of ["scanned", "directory", "printed", "tight", "summary", "sample"]) $(id).replaceChildren();
  for (const id of ["sums", "loosest"]) $(id).tBodies[0].replaceChildren();
  for (const part of document.querySelectorAll("#shares [data-share]")) part.style.flexGrow = 0;
  for (const text of document.querySelectorAll("#shared span")) text.textContent = "";
  delete $("printed").dataset.window;
  $("strip").width = 1;
  $("loose").hidden = true;
}

// How far the layer's vertices reach, and how many blobs have each type and precision.
export function showSummary({ extent, types, rows, blobs }) {
  const ends = extent.flatMap((range, axis) => (range ? [`${AXES[axis]} ${range.map((end) => ofUnits(end, 0)).join(" to ")}`] : []));
  const kinds = types.map(({ kind, precision, count }) => `${many(count, TYPES[kind])} of precision ${precision}`);
  const few = rows < blobs ? ` (of the first ${number(rows)} blobs)` : "";
  $("summary").textContent = [...ends, kinds.join(", ") + few].join("; ") + ".";
}

export function showScan({ hits, read, first, length, text }, claims) {
  const saved = length - read, lacking = ["Z", "M"].filter((axis) => text.includes(`${axis.toLowerCase()}=`) && !claims[axis]);
  const why = lacking.length ? ` This layer has no ${lacking.join(" and no ")}.` : "";
  const found = hits ? `In \`${text}\` the scan found ${many(hits, "blob")}, and` : `No blob has a vertex in \`${text}\`.${why} The scan`;
  const most = saved ? `It hopped over ${many(saved, "byte")} (${share(saved, length)}).` : "It could not skip anything.";
  const says = `${found} read ${number(read)} of ${many(length, "byte")} (${share(read, length)}). ${most}`;
  $("scanned").replaceChildren(...withCode(says).childNodes);
  const lines = first.map(([blob, offset]) => `hit blob=${blob} offset=${offset}`);
  if (first.length < hits) lines.push(`.. and ${many(hits - first.length, "more hit")}`);
  $("printed").textContent = [...lines, `hits=${hits} read=${read} of=${length}`].join("\n");
  $("printed").dataset.window = text;
}

export function showSums({ sums, gap, rows, blobs }) {
  const made = READS.map((state) => sumRow(element("th", STATE_WORDS[NAMES[state]]), sums[state], NAMES[state]));
  const read = (what) => sums[HIT][what] + sums[READ][what] + sums[HEADER][what];
  const names = ["blobs", "bytes", "directoryBlobs", "directoryBytes"];
  const whole = Object.fromEntries(names.map((what) => [what, read(what)]));
  const rest = sumRow(element("th", STATE_WORDS.hopped), sums[HOPPED], NAMES[HOPPED]);
  $("sums").tBodies[0].replaceChildren(...made, sumRow(element("th", "read in all"), whole), rest);
  showShares(sums);
  const few = `The bar, the file in lines and this table have only the first ${number(rows)} of ${number(blobs)} blobs. The sentence above counts all of them.`;
  $("directory").textContent = rows === blobs ? [gap && `The longest gap has ${many(gap, "byte")}.`, saves(whole)].filter(Boolean).join(" ") : few;
}

function saves({ bytes, directoryBytes }) {
  if (!bytes) return "";
  const directory = "With a directory, which keeps the place and the box of every blob in memory, it";
  if (directoryBytes === bytes) return `${directory} would read just as much: no blob has a box that misses the window.`;
  return `${directory} would read ${many(directoryBytes, "byte")}, since it leaves out the blobs whose box misses the window.`;
}

function sumRow(head, { blobs, bytes, directoryBlobs, directoryBytes }, name) {
  const row = element("tr", undefined, name ? "" : "whole");
  head.scope = "row";
  if (name) head.prepend(element("i", undefined, `mark ${name}`));
  row.append(head, ...[blobs, bytes, directoryBlobs, directoryBytes].map((one) => element("td", number(one), "number")));
  return row;
}

// The bar: what was read of blobs, what was read of headers on the way, and what was hopped over.
function showShares(sums) {
  const bytes = { read: sums[HIT].bytes + sums[READ].bytes, header: sums[HEADER].bytes, hopped: sums[HOPPED].bytes };
  const all = bytes.read + bytes.header + bytes.hopped, words = { ...STATE_WORDS, read: "blobs read, hit or not" };
  for (const [name, count] of Object.entries(bytes)) {
    const part = document.querySelector(`#shares [data-share=${name}]`), says = `${words[name]}: ${share(count, all)}`;
    part.style.flexGrow = all ? count / all : 0;
    document.querySelector(`#shared [data-share=${name}] span`).textContent = says;
  }
  const hit = bytes.read ? sums[HIT].bytes / bytes.read : 0;
  document.querySelector("#shares .hit").style.flexGrow = hit;
  document.querySelector("#shares .read").style.flexGrow = 1 - hit;
}

export function showTight({ tight, loose, claims }, look) {
  $("loose").hidden = !loose || !loose.loosest.length;
  if (!loose) return void ($("tight").textContent = tightly(claims));
  const { found, sized, atLeast, loosest } = loose;
  const blobs = `${atLeast ? "at least " : ""}${many(found, "blob")} ${found === 1 ? "has" : "have"} a larger box than the vertices need`;
  const none = " Nothing is hidden, and a scan reads these blobs whole, since they have no size. Only one with a directory may read more than it needs to.";
  const more = sized ? " Nothing is hidden, but scans may read more than they need to." : none;
  $("tight").textContent = `Not tight: ${blobs}.${more} The first is blob ${number(tight.blob)}, at byte ${number(tight.offset)} (${line(tight)}).`;
  $("loosest").tBodies[0].replaceChildren(...loosest.map((box) => looseRow(box, look)));
}

// An empty shape has no vertex that its box could be too large for.
function tightly({ boxes, empty }) {
  if (!boxes) return "No box is claimed, so none can be loose.";
  const filled = boxes - empty, rest = empty ? ` ${many(empty, "box")} of empty shapes ${empty === 1 ? "holds" : "hold"} no vertex.` : "";
  if (!filled) return `No box holds a vertex, so none can be loose.${rest}`;
  return `Tight: ${filled === 1 ? "the box is" : `all ${number(filled)} boxes are`} as small as the vertices allow.${rest}`;
}

function looseRow({ blob, kind, depth, offset, axis, box, extent, beyond }, look) {
  const row = element("tr"), show = element("button", number(blob)), cell = element("td", undefined, "number");
  show.type = "button";
  show.setAttribute("aria-label", `Show blob ${number(blob)} on the map`);
  show.onclick = () => look(blob);
  cell.append(show);
  const whose = depth > 1 ? `${TYPES[kind]} at byte ${number(offset)}, a member at depth ${depth}` : TYPES[kind];
  const texts = [whose, ...[box, extent].map((ends) => `${AXES[axis]} ${ends.join(" to ")}`), `up to ${beyond}`];
  row.append(cell, ...texts.map((text) => element("td", text)));
  return row;
}

export function showSample({ every, blobs, vertices }, rows, all) {
  const some = every > 1 && rows > 1 ? `one blob in ${number(every)}, ${number(blobs.length)} of ${number(rows)}` : `the first ${number(vertices)} of ${number(all)} vertices`;
  const isWhole = vertices === all;
  $("sample").textContent = isWhole ? `${many(blobs.length, "blob")}, ${many(vertices, "vertex")} drawn.` : `This layer has more than the map can show. The map draws ${some}, and every hit. Hits and bytes are counted over all.`;
}

// How many hits the map of a sample has no room for.
export function showLeft(left) {
  const drawn = left ? `all but ${number(left)} of the hits` : "every hit";
  $("sample").textContent = $("sample").textContent.replace(/(?<=, and )(?:every hit|all but [\d,]+ of the hits)/, drawn);
}
