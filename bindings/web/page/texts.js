// What the page says of each refusal: what is wrong, why it matters, and what to repair. The kinds have the program's names.
import { CERTIFIED } from "./format.js";

const UNREADABLE = "A reader can't tell where the next shape begins. It stops here, or draws shapes that aren't there.";

export const KINDS = {
  1: {
    name: "cut",
    short: "the file ends too early",
    meaning: "The file ends in the middle of a blob: a field is missing, or a part of it.",
    harm: UNREADABLE,
    repair: "Usually the file was not copied or written completely: fetch it again and compare the lengths. If its length is right, a count in this blob is too large, or the file isn't TWKB.",
  },
  2: {
    name: "varint",
    short: "a number is too long",
    meaning: "A number has more than ten bytes, or more than 64 bits. TWKB allows neither.",
    harm: UNREADABLE,
    repair: "Bytes were changed or lost before this place, or the file isn't TWKB. Write this blob again from its source.",
  },
  3: {
    name: "type",
    short: "a byte names no type of shape",
    meaning: "Each shape begins with a byte that gives its type, from 1 for a point to 7 for a collection. This byte gives another number.",
    harm: UNREADABLE,
    repair: "If this is the first byte, the file is in another format, or a length comes before each blob. If not, bytes were added or lost before this place, such as a line break between two blobs. Write the blobs one after another, with nothing between them.",
  },
  4: {
    name: "depth",
    short: "collections are nested too deep",
    meaning: "A collection lies inside 63 others. The checker follows no deeper.",
    harm: "A reader that follows such a file may run out of memory. These files come from mistakes, or are made to do harm.",
    repair: "Put the members into one collection, or write them as separate blobs.",
  },
  5: {
    name: "range",
    short: "a coordinate needs more than 64 bits",
    meaning: "Each coordinate is stored as its difference from the one before. Added up, this one needs more than 64 bits.",
    harm: "Readers let the number wrap around, and draw the vertex in the wrong place.",
    repair: "Correct the difference at this byte, or write the blob again with a lower precision.",
  },
  6: {
    name: "size",
    short: "a size is wrong",
    meaning: "This blob, or a member of it, says how many bytes follow its size. The number is wrong.",
    repair: "Write the size again: the number of bytes from the end of the size field to the end of the shape. A usual mistake is to change a shape after its size was taken.",
  },
  7: {
    name: "box",
    short: "a box is too small",
    meaning: "This blob, or a member of it, says which box its vertices lie in. One of them lies outside.",
    harm: "A reader that wants the part of the map with that vertex hops over this shape and never shows it. Nothing reports an error.",
    repair: "Make the box again from the vertices as they are stored, after they were rounded to the precision.",
  },
  8: {
    name: "ids",
    short: "two ids are equal",
    harm: "A lookup by this id may find the wrong one.",
    repair: "Give each of them an id of its own.",
  },
  9: { name: "loose" },
};

// What a scan does with a blob, in the words of legends and tables.
export const STATE_WORDS = { hit: "hit", read: "read, no hit", header: "header read on the way", hopped: "hopped over" };

export const STAGES = {
  reading: "Reading the file",
  certifying: "Checking every claim",
  decoding: "Decoding the file",
  surveying: "Counting the claims",
  explaining: "Looking at the place",
  listing: "Listing the blobs",
  drawing: "Drawing the map",
  tight: "Looking for loose boxes",
  spreading: "Scanning blob by blob",
};

// What keeps a layer from being checked.
export const FAULTS = {
  memory: "Not checked: the browser has no memory left for this layer.",
  read: "Not checked: the browser can't read this file. It may be a folder, or it changed while it was read.",
  load: "Not checked: this browser can't run the checker.",
};

// What the proved parser refuses, though its form is right.
export const WINDOW_ERRORS = {
  1: "This isn't a window. Write x=lowest..highest,y=lowest..highest, such as x=10..30,y=35..45.",
  2: "A lowest value is greater than its highest. Swap them.",
};

// A share of the whole, in percent. Only nothing is 0 %, and only all is 100 %.
export function share(part, whole) {
  const percent = whole ? (100 * part) / whole : 0;
  if (part && percent < 0.05) return "<\u00a00.1\u00a0%";
  if (part < whole && percent >= 99.5) return ">\u00a099\u00a0%";
  return `${percent >= 9.95 || percent === 0 ? percent.toFixed(0) : percent.toFixed(1)}\u00a0%`;
}

// The line that the program prints of a verdict.
export function line({ answer, kind, blobs, vertices, blob, offset }) {
  return answer === CERTIFIED ? `ok blobs=${blobs} vertices=${vertices}` : `no blob=${blob} offset=${offset} kind=${KINDS[kind].name}`;
}
