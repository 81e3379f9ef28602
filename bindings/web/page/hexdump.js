// The bytes round the place where a layer is refused, and the fields of a blob by their names.
import { element } from "./dom.js";
import { number } from "./numbers.js";

const hexOf = (byte) => byte.toString(16).padStart(2, "0");
const letterOf = (byte) => (byte >= 32 && byte < 127 ? String.fromCharCode(byte) : ".");

// The bytes in lines, with their letters: the named one marked, the rest of its field framed, and its blob shaded.
export function showBytes(pre, told, wide) {
  const { around, first, length, verdict } = told, { offset } = verdict;
  const digits = String(first + around.length).length;
  pre.replaceChildren();
  for (let line = first; line < Math.max(first + around.length, offset + 1); line += wide) {
    const end = Math.min(line + wide, Math.max(length, offset + 1), first + Math.max(around.length, offset + 1 - first));
    pre.append(`${String(line).padStart(digits)}  `);
    for (let at = line; at < end; at++) pre.append(byteAt(at, told, "hex"), " ");
    pre.append("   ".repeat(line + wide - end), " ");
    for (let at = line; at < end; at++) pre.append(byteAt(at, told, "letter"));
    pre.append("\n");
  }
}

// A byte, in hexadecimal or as a letter. Where the file ends before the place, there is none.
function byteAt(at, { around, first, start, end, length, verdict, near }, form) {
  const { offset } = verdict, isHere = at === offset, byte = around[at - first];
  const field = near.find(({ from }) => from === offset);
  const isField = at > offset && field && at < field.to, isBlob = at >= start && at < Math.max(end, offset);
  const text = form === "hex" ? (at < length ? hexOf(byte) : "··") : at < length ? letterOf(byte) : "·";
  const cell = element(isHere ? "mark" : "span", text, isHere ? "wrong" : isField ? "field blob" : isBlob ? "blob" : "");
  if (isHere && form === "hex") Object.assign(cell, { id: "byte", title: `byte ${offset}${at === length ? ", where the file ends" : ""}` });
  return cell;
}

export function showFields(body, told) {
  const { begins, gap, near, far = [] } = told, rows = begins.map((field) => fieldRow(field, told));
  if (gap) rows.push(gapRow(gap));
  rows.push(...near.map((field) => fieldRow(field, told)));
  if (far.length) rows.push(gapRow("further on"), ...far.map((field) => fieldRow(field, told)));
  body.replaceChildren(...rows);
}

function gapRow(text) {
  const row = element("tr"), cell = element("td", text);
  cell.colSpan = 4;
  row.append(cell);
  return row;
}

function fieldRow({ from, bytes, name, says, depth, stopped }, { verdict, guilty = [] }) {
  const isHere = from === verdict?.offset, isGuilty = guilty.includes(from);
  const row = element("tr", undefined, isHere ? "at" : isGuilty ? "guilty" : "");
  const code = element("td");
  code.append(element("code", [...bytes].map(hexOf).join(" ") || (stopped ? "··" : "")));
  const mark = isHere ? "  ← named by the verdict" : isGuilty ? "  ← makes it false" : "";
  row.append(element("td", number(from), "number"), code, element("td", depth > 1 ? `${name} (member at depth ${depth})` : name), element("td", says + mark));
  return row;
}
