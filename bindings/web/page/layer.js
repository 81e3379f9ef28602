// A certified layer in the worker: its rows, what a scan read of each blob, what the map draws, and which boxes are loose.
//
// Each works on runs of blobs, since a run of a certified layer is one by itself, and yields between: a yield says how much is
// done of how much, and the worker may drop the rest.
import { Fields, shown } from "./fields.js";
import { COLLECTION, EMPTY, REFUSED, UNITS } from "./format.js";
import { many, ofUnits } from "./numbers.js";
import { HEADER, HIT, HOPPED, READ } from "./states.js";
import { boxOf, looseIn, partsOf, precisionOf, survey, Walk } from "./walk.js";

// The most rows that are kept, and the most vertices that are drawn: of a sample, and of the hits that it lacks. A blob may be drawn that
// goes beyond.
const MOST_ROWS = 1 << 22, MOST_DRAWN = 300000, MOST_HITS = 1 << 20;
const RUN = 4096, LOOSEST = 8, MOST_LOOSE = 2000;
// How many fields are shown of a blob that is picked.
const MOST_FIELDS = 60;

class Enough extends Error {}

// Lowest X and Y, then highest, of ends in units.
const asDoubles = (low, high) => [low[0], low[1], high[0], high[1]].map((end) => Number(end) / UNITS);

export class Layer {
  // The blobs of the library's bytes up to a length.
  constructor(library, { blobs, vertices }, length = library.length) {
    Object.assign(this, { library, blobs, vertices, length });
  }

  // Chooses the whole layer.
  whole() {
    this.library.choose(0, this.length, this.blobs, this.vertices);
  }

  one(k) {
    this.library.choose(this.offset[k], this.bytes[k], 1, this.count[k]);
  }

  list() {
    this.whole();
    const { vertices, ...columns } = this.library.list(Math.min(this.blobs, MOST_ROWS));
    Object.assign(this, columns, { count: vertices, rows: vertices.length });
    this.read = new Uint32Array(this.rows);
    this.state = new Uint8Array(this.rows);
    this.missed = new Uint8Array(this.rows);
  }

  // What the layer claims, how far its vertices reach, which proved scans confirm, and how many blobs have each type and precision.
  *survey() {
    const { claims, low, high } = yield* survey(this.library.bytes, this.length);
    this.whole();
    const extent = [0, 1, 2, 3].map((axis) => (low[axis] === undefined ? null : this.confirmed(axis, low[axis], high[axis])));
    return { claims, extent, types: this.types(), rows: this.rows, blobs: this.blobs };
  }

  // The ends of the chosen blobs' vertices on an axis, which the walk found.
  confirmed(axis, low, high) {
    if (!this.library.reaches(axis, low, high)) throw new Error(`the vertices don't reach from ${low} to ${high}`);
    return [low, high];
  }

  // The commonest type and precision comes first. A precision is from -8 to 7.
  types() {
    const counts = new Uint32Array(128);
    for (let k = 0; k < this.rows; k++) counts[16 * this.kind[k] + this.precision[k] + 8]++;
    const types = Array.from(counts, (count, at) => ({ kind: at >> 4, precision: (at & 15) - 8, count }));
    return types.filter(({ count }) => count).sort((one, other) => other.count - one.count);
  }

  // Which blobs the map draws: all, or every second, third and so on where there are too many vertices.
  sampled() {
    return Math.max(1, Math.ceil(this.vertices / MOST_DRAWN), Math.ceil(this.rows / MOST_DRAWN));
  }

  // The picture of every so many blobs.
  draw() {
    const every = this.sampled(), blobs = Uint32Array.from({ length: Math.ceil(this.rows / every) }, (_, i) => i * every);
    return this.pictured(blobs, every, 2 * MOST_DRAWN);
  }

  // The picture of the hits that the sample lacks, as many as have room.
  drawHits() {
    const every = this.sampled(), blobs = [];
    let vertices = 0, left = 0;
    for (let k = 0; k < this.rows; k++) {
      if (this.state[k] !== HIT || k % every === 0) continue;
      if (vertices >= MOST_HITS) left++;
      else blobs.push(k);
      vertices += this.count[k];
    }
    return { blobs: Uint32Array.from(blobs), left };
  }

  // The picture of those hits.
  picturedHits(blobs) {
    return this.pictured(blobs, 1, 2 * MOST_HITS);
  }

  // A picture: vertices, where each part of them begins and of which blob it is, and boxes.
  *pictured(blobs, every, most) {
    const drawn = blobs.length, picture = { every, blobs, boxes: new Float64Array(4 * drawn).fill(NaN), from: [], shape: [], of: [] };
    const room = new Float64Array(2 * Math.min(this.vertices, most));
    let used = 0;
    for (let i = 0; i < drawn; i++) {
      const k = blobs[i], count = Math.min(this.count[k], room.length / 2 - used);
      this.one(k);
      this.library.draw(room, used, count);
      used = this.parts(picture, i, k, used, used + count);
      if (i % RUN === RUN - 1) yield [i, drawn];
    }
    const [from, shape, of] = [Uint32Array.from([...picture.from, used]), Uint8Array.from(picture.shape), Uint32Array.from(picture.of)];
    return { ...picture, from, shape, of, xy: room.slice(0, 2 * used), vertices: used };
  }

  // Notes the parts of a blob whose vertices have places up to `end`, and answers the place after them.
  parts(picture, i, k, used, end) {
    const box = partsOf(this.library.bytes, this.offset[k], (shape, count) => {
      if (used >= end || count === 0) return;
      picture.from.push(used);
      picture.shape.push(shape);
      picture.of.push(i);
      used = Math.min(used + count, end);
    });
    if (box) picture.boxes.set(asDoubles(...[0, 1].map((end) => box.map((range) => range[end]))), 4 * i);
    return used;
  }

  // A scan of the whole layer for the window that was read last.
  scan(most) {
    this.whole();
    return this.library.scan(most);
  }

  // Scans blob by blob, all or every second, third and so on, for what is read of each.
  *spread(every) {
    for (let k = 0, done = 1; k < this.rows; k += every, done++) {
      this.one(k);
      const { hits, read } = this.library.scan(0);
      this.read[k] = read;
      this.missed[k] = this.misses(k, read);
      this.state[k] = hits ? HIT : this.missed[k] && this.size[k] ? HOPPED : READ;
      if (done % RUN === 0) yield [k, this.rows];
    }
  }

  // Whether the blob's own box misses the window. A scan says so where it leaves a part of a blob without members.
  misses(k, read) {
    if (!this.box[k]) return false;
    const isEmpty = this.library.bytes[this.offset[k] + 1] & EMPTY;
    if (this.size[k] && this.kind[k] !== COLLECTION && !isEmpty) return read < this.bytes[k];
    return this.library.misses(this.offset[k]);
  }

  // By what was done: how many blobs and bytes, here and in a scan with a directory, which reads nothing of a blob whose box misses; and
  // the longest gap that is hopped over.
  sums() {
    let gap = 0;
    const sums = [READ, HOPPED, HIT, HEADER].map(() => ({ blobs: 0, bytes: 0, directoryBlobs: 0, directoryBytes: 0 }));
    const hopped = sums[HOPPED];
    for (let k = 0; k < this.rows; k++) {
      const state = this.state[k], sum = sums[state === HOPPED ? HEADER : state], read = this.missed[k] ? 0 : this.read[k];
      sum.blobs++;
      sum.bytes += this.read[k];
      sum.directoryBlobs += 1 - this.missed[k];
      sum.directoryBytes += read;
      hopped.blobs += state === HOPPED;
      hopped.bytes += this.bytes[k] - this.read[k];
      gap = Math.max(gap, this.bytes[k] - this.read[k]);
      hopped.directoryBlobs += this.missed[k];
      hopped.directoryBytes += this.bytes[k] - read;
    }
    return { sums, gap };
  }

  // The file in cells: for each how many of its bytes were read for hits, read for none, read as a header, and hopped over.
  strip(cells) {
    const strip = new Float32Array(4 * cells), scale = cells / Math.max(1, this.length);
    const fill = (from, to, state) => {
      for (let cell = Math.floor(from * scale); cell < Math.min(cells, to * scale); cell++) {
        strip[4 * cell + state] += Math.min(to, (cell + 1) / scale) - Math.max(from, cell / scale);
      }
    };
    for (let k = 0; k < this.rows; k++) {
      const from = this.offset[k], to = from + this.bytes[k], read = from + this.read[k];
      fill(from, read, this.state[k] === HOPPED ? HEADER : this.state[k]);
      if (read < to) fill(read, to, HOPPED);
    }
    return strip;
  }

  // The blobs with loose boxes by the proved check, and the boxes of them that reach furthest beyond their vertices.
  *loose() {
    const loosest = [];
    let found = 0, sized = 0;
    for (let k = 0; k < this.rows && found < MOST_LOOSE; k++) {
      if (this.library.certify(true, this.offset[k], this.bytes[k]).answer === REFUSED) {
        found++;
        const boxes = looseIn(this.library.bytes, this.offset[k]);
        sized += boxes.some(({ of }) => of.size !== null);
        if (boxes.length) loosest.push({ blob: k, ...boxes.reduce((one, other) => (other.beyond > one.beyond ? other : one)) });
        loosest.sort((one, other) => (other.beyond > one.beyond ? 1 : other.beyond < one.beyond ? -1 : one.blob - other.blob));
        loosest.splice(LOOSEST);
      }
      if (k % RUN === RUN - 1 || found % 64 === 63) yield [k, this.rows];
    }
    return { found, sized, atLeast: found === MOST_LOOSE, loosest: loosest.map((one) => this.looseness(one)) };
  }

  // How loose a box is, as exact texts: on the axis where it reaches furthest beyond its vertices. Proved scans confirm where those end.
  looseness({ blob, of, axis, box, beyond }) {
    const told = this.library.certify(false, of.from, of.end - of.from), precision = precisionOf(of, axis);
    this.library.choose(of.from, of.end - of.from, 1, told.vertices);
    const ends = this.confirmed(axis, of.low[axis], of.high[axis]), text = (end) => ofUnits(end, precision);
    return { blob, kind: of.kind, depth: of.depth, offset: of.from, axis, box: box[axis].map(text), extent: ends.map(text), beyond: text(beyond) };
  }

  // What is shown of one blob: its box and how far its vertices reach, as doubles for the map, and its first fields.
  picked(k) {
    const { bytes } = this.library, of = new Walk(bytes, this.offset[k], { geometry() {} }).geometry();
    const ranges = of.boxAt === null ? null : boxOf(bytes, of);
    const box = ranges && asDoubles(...[0, 1].map((end) => ranges.map((range) => range[end]))), extent = of.vertices ? asDoubles(of.low, of.high) : null;
    return { ...this.row(k), box, extent, ...this.fields(k) };
  }

  fields(k) {
    const { bytes } = this.library, begins = [];
    const take = (field) => {
      if (begins.length === MOST_FIELDS) throw new Enough();
      begins.push(shown(field, bytes));
    };
    try {
      const walk = new Fields(bytes, this.offset[k], take).walk();
      while (!walk.next().done);
    } catch (error) {
      if (!(error instanceof Enough)) throw error;
    }
    const last = begins.at(-1).to, end = this.offset[k] + this.bytes[k];
    return { begins, near: [], gap: last < end ? `${many(end - last, "more byte")}, not shown` : "" };
  }

  // The numbers of the rows in the order of a column.
  sorted(column, down) {
    if (this.order && this.order.column === column && this.order.down === down && column !== "read" && column !== "state") return this.order.rows;
    const values = column === "blob" ? null : this[column], rows = new Uint32Array(this.rows);
    const keys = Float64Array.from(rows, (_, k) => (values ? values[k] + 128 : k) * MOST_ROWS * (down ? -1 : 1) + k).sort();
    rows.forEach((_, i) => (rows[i] = ((keys[i] % MOST_ROWS) + MOST_ROWS) % MOST_ROWS));
    this.order = { column, down, rows };
    return rows;
  }

  page({ column, down, from, count }) {
    return Array.from(this.sorted(column, down).subarray(from, from + count), (k) => this.row(k));
  }

  row(k) {
    const names = ["offset", "bytes", "kind", "precision", "count", "size", "box", "state", "read"];
    return { blob: k, ...Object.fromEntries(names.map((name) => [name, this[name][k]])) };
  }

  // Where a blob is in the order of a column.
  position(k, { column, down }) {
    return this.sorted(column, down).indexOf(k);
  }
}
