// A walk over certified blobs: the lines, rings and points that the map draws, boxes, claims, and how far vertices reach.
//
// What is drawn comes from the proved module, in the order of the parts here. Only certified bytes are walked.
import { BOX, COLLECTION, EMPTY, EXTENDED, IDS, LINE, LINESTRING, MULTILINESTRING, MULTIPOINT, POINT, POINTS, POLYGON, RING, SIZE } from "./format.js";
import { inUnits, minus, plus, Reader, unzigzag } from "./numbers.js";

// After how many blobs a walk over all of them yields.
const BLOBS = 1024;
// The axes of a geometry, by the lowest two bits of its extended dimensions.
const AXES_OF = [[0, 1], [0, 1, 2], [0, 1, 3], [0, 1, 2, 3]];

export class Walk extends Reader {
  // `told` may have `part(shape, vertices)`, which gets each part, and `geometry(of)`, which gets each geometry after its members, with
  // how far its vertices reach (`low` and `high`, axis by axis, in units).
  constructor(bytes, at, told = {}) {
    super(bytes, at);
    this.told = told;
    this.claims = { sizes: 0, boxes: 0, both: 0, ids: 0, Z: 0, M: 0 };
  }

  // Walks the geometry that begins here, to its end.
  geometry(depth = 1) {
    const of = this.header(depth);
    if (!of.empty) this.body(of);
    of.end = this.at;
    if (of.sums) this.measured(of);
    this.told.geometry?.(of);
    return of;
  }

  header(depth = 1) {
    const { bytes, claims } = this, from = this.at, first = bytes[this.at++], metadata = bytes[this.at++];
    const extended = metadata & EXTENDED ? bytes[this.at++] : 0, kind = first & 15;
    const of = { from, depth, kind, first, extended, axes: AXES_OF[extended & 3], vertices: 0, low: [], high: [], sums: null, size: null, boxAt: null };
    if (metadata & SIZE) of.size = this.unsigned();
    of.after = of.size === null ? null : this.at + of.size;
    if (metadata & BOX) {
      of.boxAt = this.at;
      this.skip(2 * of.axes.length);
    }
    of.empty = !!(metadata & EMPTY);
    of.ids = !!(metadata & IDS) && kind >= MULTIPOINT;
    claims.sizes += of.size !== null;
    claims.boxes += of.boxAt !== null;
    claims.both += of.size !== null && of.boxAt !== null;
    claims.Z += extended & 1;
    claims.M += (extended >> 1) & 1;
    return of;
  }

  body(of) {
    const { kind } = of;
    if (kind === POINT) return this.points(of, 1, POINTS);
    const count = this.unsigned();
    if (kind === LINESTRING) return this.points(of, count, LINE);
    if (kind === POLYGON) return this.rings(of, count);
    if (of.ids) this.skip(count);
    this.claims.ids += of.ids && count > 0;
    if (kind === MULTIPOINT) return this.points(of, count, POINTS);
    for (let left = count; left > 0; left--) {
      if (kind === MULTILINESTRING) this.points(of, this.unsigned(), LINE);
      else if (kind !== COLLECTION) this.rings(of, this.unsigned());
      else include(of, this.geometry(of.depth + 1));
    }
  }

  rings(of, count) {
    for (let left = count; left > 0; left--) this.points(of, this.unsigned(), RING);
  }

  // The vertices are read where someone wants to know how far they reach, and else passed.
  points(of, count, shape) {
    if (!this.told.geometry) this.skip(of.axes.length * count);
    else if (count > 0) this.reach(of, count);
    of.vertices += count;
    this.told.part?.(shape, count);
  }

  reach(of, count) {
    of.sums ??= of.axes.map(() => ({ sum: 0, least: Infinity, greatest: -Infinity }));
    const { bytes } = this, { sums } = of;
    for (let left = count; left > 0; left--) {
      for (let i = 0; i < sums.length; i++) {
        const axis = sums[i], byte = bytes[this.at], next = bytes[this.at + 1];
        // Most steps have one byte or two.
        let step;
        if (byte < 128) step = byte & 1 ? -((byte + 1) >> 1) : byte >> 1;
        else if (next < 128) step = byte & 1 ? -(((next << 7) | (byte & 127)) + 1) >> 1 : ((next << 7) | (byte & 127)) >> 1;
        if (step === undefined) step = this.signed();
        else this.at += byte < 128 ? 1 : 2;
        axis.sum = plus(axis.sum, step);
        if (axis.sum < axis.least) axis.least = axis.sum;
        if (axis.sum > axis.greatest) axis.greatest = axis.sum;
      }
    }
  }

  measured(of) {
    of.axes.forEach((axis, i) => {
      const precision = precisionOf(of, axis);
      of.low[axis] = inUnits(of.sums[i].least, precision);
      of.high[axis] = inUnits(of.sums[i].greatest, precision);
    });
  }
}

// The precision of an axis of a geometry.
export function precisionOf({ first, extended }, axis) {
  return axis < 2 ? unzigzag(first >> 4) : axis === 2 ? (extended >> 2) & 7 : extended >> 5;
}

// The box of a geometry that has one: the lowest and the highest of each axis, in units.
export function boxOf(bytes, of) {
  const reader = new Reader(bytes, of.boxAt), box = [];
  for (const axis of of.axes) {
    const low = reader.signed();
    box[axis] = [low, plus(low, reader.signed())].map((end) => inUnits(end, precisionOf(of, axis)));
  }
  return box;
}

// Makes a reach at least as far as another one.
function include(of, { low, high, vertices }) {
  of.vertices += vertices;
  for (let axis = 0; axis < low.length; axis++) {
    if (low[axis] === undefined) continue;
    if (!(of.low[axis] <= low[axis])) of.low[axis] = low[axis];
    if (!(of.high[axis] >= high[axis])) of.high[axis] = high[axis];
  }
}

// The place after the blob that begins here. The size of a certified blob is true, so it leads there.
export function after(bytes, at) {
  const walk = new Walk(bytes, at), of = walk.header();
  if (of.after !== null) return of.after;
  if (!of.empty) walk.body(of);
  return walk.at;
}

// Calls `part(shape, vertices)` for each part of the blob that begins here, and answers its box, in units, or null.
export function partsOf(bytes, at, part) {
  const of = new Walk(bytes, at, { part }).geometry();
  return of.boxAt === null ? null : boxOf(bytes, of);
}

// What a certified layer claims, at all depths: sizes, boxes, both at once, and lists of ids; how many headers have Z and M, how many boxes
// hold no vertex, and how far the vertices of all blobs reach. Yields how far it is.
export function* survey(bytes, length) {
  let empty = 0;
  const geometry = ({ boxAt, vertices }) => (empty += boxAt !== null && vertices === 0);
  const walk = new Walk(bytes, 0, { geometry }), whole = { low: [], high: [], vertices: 0 };
  for (let blobs = 1; walk.at < length; blobs++) {
    include(whole, walk.geometry());
    if (blobs % BLOBS === 0) yield [walk.at, length];
  }
  return { claims: { ...walk.claims, empty }, ...whole };
}

// The boxes in a certified blob that reach beyond their vertices by a step of their precision or more: on which axis, and by how much.
export function looseIn(bytes, at) {
  const found = [];
  const geometry = (of) => {
    if (of.boxAt === null || !of.vertices) return;
    const box = boxOf(bytes, of);
    // A member may lack an axis of the box.
    for (const axis of of.axes.filter((one) => of.low[one] !== undefined)) {
      const [low, high] = box[axis], sides = [minus(of.low[axis], low), minus(high, of.high[axis])];
      const beyond = sides[0] > sides[1] ? sides[0] : sides[1];
      if (beyond >= inUnits(1, precisionOf(of, axis))) found.push({ of, axis, box, beyond });
    }
  };
  new Walk(bytes, at, { geometry }).geometry();
  return found;
}
