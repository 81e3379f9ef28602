// What the page says of a layer as a whole: its verdict, and why it is refused.
import { $, element, withCode } from "./dom.js";
import { CERTIFIED } from "./format.js";
import { many, number } from "./numbers.js";
import { KINDS, line } from "./texts.js";

// How many other wrong blobs are named.
const MOST_NAMED = 5;
const hex = (offset) => `0x${offset.toString(16)}`;

// The verdict comes before its claims are counted: `claims` is null until then.
export function showVerdict(told, name, claims) {
  const { verdict, decoded } = told, box = $("verdict"), isCertified = verdict.answer === CERTIFIED;
  box.className = !isCertified ? "no" : verdict.blobs ? "ok" : "";
  const [title, ...sentences] = isCertified ? certified(told, name, claims) : refused(told, name);
  const first = element("p"), printed = element("p");
  first.append(element("strong", title));
  printed.append(decoded.length ? "As the program prints it of the decoded bytes: " : "As the program prints it: ", element("code", line(verdict)));
  box.replaceChildren(first, ...[...decoded.map((one, i) => decodedFrom(one, i ? "What is inside" : name)), ...sentences].map(withCode), printed);
  box.lastChild.id = "line";
}

function decodedFrom({ what, how, length }, name) {
  return `${name} is ${what}, ${many(length, "byte")} long. This page decoded it. The program doesn't. ${how}`;
}

function certified({ verdict, length }, name, claims) {
  const { blobs, vertices } = verdict;
  if (!blobs) return ["This file is empty: there is nothing to check.", `${name} has no bytes. Was it written completely?`];
  const holds = `${name} has ${many(blobs, "blob")} with ${many(vertices, "vertex")}, in ${many(length, "byte")}.`;
  if (!claims) return ["Certified.", `${holds} Counting what it claims.`];
  const made = [["size", claims.sizes], ["box", claims.boxes], ["list of ids", claims.ids]].filter(([, count]) => count);
  const words = made.map(([word, count]) => many(count, word));
  if (!words.length) return ["Certified: well formed. Nothing is claimed.", holds, lacks(blobs, "a size or a box")];
  const claimed = `${words.slice(0, -1).join(", ")}${words.length > 1 ? " and " : ""}${words.at(-1)}`;
  const missing = ["a box", "a size"].filter((_, i) => ![claims.boxes, claims.sizes][i]).join(" or ");
  const rest = claims.both ? [] : [lacks(blobs, missing || "both a size and a box")];
  const more = Math.max(claims.sizes, claims.boxes) > blobs ? " Members of collections are counted too." : "";
  return ["Certified: every claim is true.", `${holds} It claims ${claimed}.${more}`, ...rest];
}

function lacks(blobs, what) {
  if (blobs === 1) return `The blob doesn't have ${what}, so a scan reads all of it.`;
  return `None of the ${number(blobs)} blobs has ${what}, so a scan reads all of them.`;
}

// A file of another format is named first: it has no sizes and no types to talk about.
function refused({ verdict, length, looksLike, decoded }, name) {
  const { kind, blob, offset } = verdict;
  if (looksLike) return [`Not TWKB: this looks like ${looksLike.what}.`, ...(looksLike.how ? [looksLike.how] : [])];
  const ends = offset < length ? ` of ${many(length, decoded.length ? "decoded byte" : "byte")}` : ", where the file ends";
  return [`Refused: ${KINDS[kind].short}.`, `The first fault in ${name}: blob number ${number(blob)} (counted from 0) is wrong at offset ${number(offset)} (${hex(offset)})${ends}.`];
}

// What keeps a file from being checked is no refusal.
export function showFault(text) {
  const box = $("verdict");
  box.className = "fault";
  box.replaceChildren(element("p"));
  box.firstChild.append(element("strong", text));
}

export function showReasons({ verdict, detail, meaning, harm }) {
  const words = KINDS[verdict.kind], shown = { ...words, meaning: meaning ?? words.meaning, harm: harm ?? words.harm };
  for (const part of ["meaning", "harm", "repair"]) $(part).textContent = shown[part];
  $("detail").textContent = detail;
  $("others").textContent = "Looking for more.";
}

// The wrong blobs after the first one.
export function showOthers({ others, isAll }) {
  const named = others.slice(0, MOST_NAMED).map(({ blob, offset, kind }) => `blob ${number(blob)} at offset ${number(offset)} (${hex(offset)}): ${KINDS[kind].short}`);
  const rest = others.length > named.length ? `; and ${number(others.length - named.length)} more` : "";
  const count = `${others.length ? number(others.length) : "No"} other wrong ${others.length === 1 ? "blob" : "blobs"}`;
  const end = isAll ? "" : " The blobs after that can't be counted, since where they begin isn't known.";
  $("others").textContent = `${count}${named.length ? `: ${named.join("; ")}${rest}` : ""}.${end}`;
}
