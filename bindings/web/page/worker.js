// The worker: reads, certifies, lists, scans and draws, so that the page never waits. It answers in messages.
//
// Long work is done in slices, and messages are taken between them. What was asked of an earlier layer, or for an earlier
// window, is then dropped.
import { CERTIFIED, EQUAL_IDS, FALSE_BOX, FALSE_SIZE, REFUSED } from "./format.js";
import { Fields } from "./fields.js";
import { DECODERS, recognised } from "./formats.js";
import { Layer } from "./layer.js";
import { reasons } from "./refusal.js";
import { Library, NoMemory } from "./twkb.js";
import { after } from "./walk.js";

const MOST_BYTES = 268435456;
const SLICE = 40, ROUND = 64, SHOWN_HITS = 5000, CELLS = 3600;
// How often one text or one packed file may be in another, and how many wrong blobs are counted.
const MOST_DECODED = 3, MOST_WRONG = 1000;
// How many vertices of a wrong blob are drawn.
const MOST_SHAPE = 100000;
const ENDS = [FALSE_SIZE, FALSE_BOX, EQUAL_IDS];
let library, layer = null, run = 0, asked = 0, loaded;
// A file may be chosen before the module is there.
const ready = new Promise((resolve) => (loaded = resolve));

const tell = (message, moved = []) => postMessage({ run, ...message }, moved);
const pause = () => new Promise((resume) => setTimeout(resume));

class Dropped extends Error {}
class Unread extends Error {}

// Runs work that yields how far it is, in slices; it is dropped when `stays` no longer holds.
async function inSlices(work, stage, stays) {
  let last = performance.now();
  for (;;) {
    const { value, done } = work.next();
    if (done) return value;
    if (performance.now() - last < SLICE) continue;
    tell({ tell: "progress", stage, done: value?.[0], of: value?.[1] });
    await pause();
    if (!stays()) throw new Dropped();
    last = performance.now();
  }
}

async function read(file, stays) {
  library.begin(file.size);
  try {
    await stream(file, stays);
  } catch (error) {
    throw error instanceof Dropped ? error : new Unread(error.message);
  }
}

async function stream(file, stays) {
  const reader = file.stream().getReader();
  let at = 0, last = performance.now();
  for (;;) {
    const { value, done } = await reader.read();
    if (done) break;
    if (!stays()) throw new Dropped();
    if (at + value.length > file.size) throw new Error("the file grew");
    library.put(at, value);
    at += value.length;
    if (performance.now() - last < SLICE) continue;
    tell({ tell: "progress", stage: "reading", done: at, of: file.size });
    last = performance.now();
  }
  if (at !== file.size) throw new Error("the file shrank");
}

// A stage that is one call: nothing tells how far it is.
async function stage(name, stays) {
  tell({ tell: "progress", stage: name });
  await pause();
  if (!stays()) throw new Dropped();
}

async function open({ file }) {
  const mine = run;
  const stays = () => run === mine;
  layer = null;
  await ready;
  if (!stays()) return;
  if (file.size > MOST_BYTES) return tell({ tell: "large", length: file.size });
  await stage("reading", stays);
  await read(file, stays);
  await stage("certifying", stays);
  const told = await judge(file.size, stays);
  if (told.verdict.answer === REFUSED) return refuse(told, stays);
  tell({ tell: "verdict", ...told });
  await show(new Layer(library, told.verdict), stays);
}

// The verdict on the file, or on the layer that it means where it is text or packed: then how it was decoded.
async function judge(length, stays) {
  const first = library.certify(), decoded = [];
  if (first.answer === CERTIFIED) return { verdict: first, length, decoded };
  let looksLike = recognised(library.bytes);
  while (looksLike?.decode && decoded.length < MOST_DECODED) {
    const bytes = await decode(looksLike.decode, stays);
    if (!stays()) throw new Dropped();
    if (!bytes) break;
    decoded.push({ ...looksLike, length: library.length });
    library.begin(bytes.length);
    library.put(0, bytes);
    const verdict = library.certify();
    if (verdict.answer === CERTIFIED) return { verdict, length: bytes.length, decoded };
    looksLike = recognised(library.bytes);
  }
  const verdict = decoded.length ? library.certify() : first;
  return { verdict, length: library.length, decoded, looksLike: looksLike?.decode && decoded.length ? { what: looksLike.what, how: looksLike.how } : looksLike };
}

// The decoded bytes, or null.
async function decode(name, stays) {
  await stage("decoding", stays);
  const bytes = library.bytes.slice();
  if (name !== "gzip") return inSlices(DECODERS[name](bytes), "decoding", stays);
  const chunks = [], reader = new Blob([bytes]).stream().pipeThrough(new DecompressionStream("gzip")).getReader();
  let length = 0;
  try {
    for (let { value, done } = await reader.read(); !done; { value, done } = await reader.read()) {
      if (!stays()) throw new Dropped();
      length += value.length;
      if (length > MOST_BYTES) return reader.cancel(), null;
      chunks.push(value);
    }
  } catch (error) {
    if (error instanceof Dropped) throw error;
    return null;
  }
  return new Uint8Array(await new Blob(chunks).arrayBuffer());
}

// Lists and draws a certified layer, and answers scans from then on.
async function show(of, stays, wrong = null) {
  await stage("listing", stays);
  of.list();
  const told = await inSlices(of.survey(), "surveying", stays);
  tell({ tell: "survey", ...told });
  if (wrong === null) layer = of;
  const picture = await inSlices(of.draw(), "drawing", stays);
  tell({ tell: "picture", picture, rows: of.rows, vertices: of.vertices, extent: told.extent, wrong }, buffersOf(picture));
  if (wrong !== null) return;
  await tightness(of, stays, told.claims);
  tell({ tell: "done" });
}

const buffersOf = ({ blobs, boxes, from, shape, of, xy }) => [blobs, boxes, from, shape, of, xy].map((one) => one.buffer);

async function tightness(of, stays, claims) {
  await stage("tight", stays);
  const tight = library.certify(true);
  const loose = tight.answer === REFUSED ? await inSlices(of.loose(), "tight", stays) : null;
  tell({ tell: "tight", tight, loose, claims });
}

// Says what is wrong, shows it on the map after the certified blobs before it, and counts the other wrong blobs as far as blobs have ends.
async function refuse(told, stays) {
  const { verdict, looksLike } = told, { bytes } = library;
  tell({ tell: "verdict", ...told });
  if (looksLike) return tell({ tell: "done" });
  await stage("explaining", stays);
  const start = await inSlices(startOf(verdict.blob), "explaining", stays);
  const found = await inSlices(reasons(bytes, start, verdict), "explaining", stays);
  const first = Math.max(0, (verdict.offset & ~15) - ROUND);
  const around = bytes.slice(first, Math.min(bytes.length, (verdict.offset | 15) + ROUND + 1));
  tell({ tell: "refused", ...found, verdict, start, first, around, length: bytes.length });
  const others = await inSlices(othersAfter(verdict, found), "explaining", stays);
  tell({ tell: "others", ...others });
  const wrong = await inSlices(shapeOf(start), "drawing", stays), front = library.certify(false, 0, start);
  await show(new Layer(library, front, start), stays, wrong);
  tell({ tell: "done" });
}

function* startOf(blob) {
  let start = 0;
  for (let k = 0; k < blob; k++) {
    start = after(library.bytes, start);
    if (k % 4096 === 4095) yield [k, blob];
  }
  return start;
}

// The wrong blobs after the first one. A blob with a false claim has an end that is known; after another fault no blob can be found.
function* othersAfter({ kind, blob }, { end, isWhole }) {
  const { bytes, length } = library, others = [];
  let at = end, next = blob + 1, isKnown = isWhole && ENDS.includes(kind);
  while (isKnown && at < length && others.length < MOST_WRONG) {
    const verdict = library.certify(false, at, length - at);
    if (verdict.answer !== REFUSED) return { others, isAll: true };
    for (let k = 0; k < verdict.blob; k++) at = after(bytes, at);
    others.push({ ...verdict, blob: next + verdict.blob });
    const fields = new Fields(bytes, at, () => {}, [0, 0]);
    isKnown = (yield* fields.walk()) && ENDS.includes(verdict.kind);
    at = fields.at;
    next += verdict.blob + 1;
    yield [at, length];
  }
  return { others, isAll: isKnown && at >= length };
}

// X and Y of the vertices of a wrong blob, as far as they can be read, for drawing.
function* shapeOf(start) {
  const xy = [];
  const coordinate = (of, axis, sum) => axis < 2 && xy.length < 2 * MOST_SHAPE && xy.push(Number(sum) / 10 ** of.precisions[axis]);
  const take = ({ of, axis, sum }) => axis !== undefined && coordinate(of, axis, sum);
  for (const step of new Fields(library.bytes, start, take, [0, 0], coordinate).walk()) {
    if (xy.length === 2 * MOST_SHAPE) break;
    yield step;
  }
  return Float64Array.from(xy.slice(0, xy.length & ~1));
}

async function scan({ text, number }) {
  const window = library.window(text);
  if (window.answer) return tell({ tell: "window", number, answer: window.answer });
  asked = number;
  const of = layer, mine = run;
  const { hits, read, first } = of.scan(SHOWN_HITS);
  // While blobs are scanned their states are of two windows.
  of.window = 0;
  const answer = { number, text, ends: window.ends, hits, read, first, length: of.length };
  tell({ tell: "scanned", ...answer });
  const stays = () => asked === number && run === mine;
  const every = of.sampled();
  const drawn = () => of.state.filter((_, k) => k % every === 0);
  // What is drawn comes first, since one scan for each blob of a large layer takes long.
  if (every > 1) {
    await inSlices(of.spread(every), "spreading", stays);
    tell({ tell: "coloured", number, state: drawn() });
  }
  await inSlices(of.spread(1), "spreading", stays);
  of.window = number;
  const { blobs, left } = of.drawHits(), more = blobs.length ? await inSlices(of.picturedHits(blobs), "drawing", stays) : null;
  const told = { ...of.sums(), strip: of.strip(CELLS), rows: of.rows, blobs: of.blobs };
  tell({ tell: "spread", number, state: drawn(), more, left, ...told }, more ? buffersOf(more) : []);
}

const ANSWERS = {
  async load({ module }) {
    library = await Library.load(module);
    loaded();
    tell({ tell: "ready" });
  },
  open,
  scan,
  async rows(wish) {
    tell({ tell: "rows", wish, number: layer.window, rows: layer.page(wish), total: layer.rows, blobs: layer.blobs });
  },
  // What the map and the table show of one blob.
  async pick({ blob, order }) {
    tell({ tell: "picked", ...layer.picked(blob), position: layer.position(blob, order) });
  },
};

onmessage = async ({ data }) => {
  if (data.ask === "open") run = data.run;
  if (data.run !== run && data.ask !== "load") return;
  if (!layer && ["scan", "rows", "pick"].includes(data.ask)) return;
  try {
    await ANSWERS[data.ask](data);
  } catch (error) {
    if (error instanceof Dropped) return;
    if (data.ask !== "load" && data.run !== run) return;
    const what = error instanceof NoMemory ? "memory" : error instanceof Unread ? "read" : data.ask;
    tell({ tell: "failed", what, why: String(error.message ?? error) });
  }
};
