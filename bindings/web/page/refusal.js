// What is wrong with a refused blob, in its own numbers, and its fields round the place.
import { Fields, shown } from "./fields.js";
import { AXES, EQUAL_IDS, FALSE_BOX, FALSE_SIZE } from "./format.js";
import { decimal, inUnits, many, minus, number, plus } from "./numbers.js";

// How many fields are shown: the first ones of the blob, and before and after the place.
const FIRST = 6, NEAR = 10;
// How many vertices are drawn beside a false box.
const MOST_SHOWN = 4000;
// How far from the place all fields are taken, in bytes. A point has no more bytes than MOST_POINT.
const BYTES = 400, MOST_POINT = 40;

// The blob number `blob` that begins at `start` was refused at `offset`. Says its fields round there, how many lie between, and a detail.
// Yields on the way. `end` is where the blob ends, where that is known.
export function* reasons(bytes, start, { offset, kind, blob }) {
  const seen = new Seen(offset), look = LOOKS[kind]?.() ?? new Stop();
  const take = (field) => {
    look.take(field, offset);
    seen.take(field);
  };
  const pass = look.coordinate && ((...coordinate) => look.coordinate(...coordinate));
  const fields = new Fields(bytes, start, take, [offset - BYTES, offset + BYTES], pass), isWhole = yield* fields.walk();
  const guilty = look.guilty?.() ?? [], far = yield* fieldsAt(bytes, start, guilty.filter((from) => !seen.has(from)));
  const told = { meaning: look.meaning?.(), harm: isWhole && look.harm ? yield* look.harm(bytes, start, fields.at, blob) : undefined };
  const detail = look.detail(offset, bytes.length);
  return { ...seen.answer(fields.passed, bytes), ...told, detail, guilty, far, outside: look.outside?.() ?? null, end: fields.at, isWhole };
}

// The fields of a blob that begin at these places.
function* fieldsAt(bytes, start, places) {
  if (!places.length) return [];
  const found = [], take = (field) => places.includes(field.from) && found.push(shown(field, bytes));
  for (const step of new Fields(bytes, start, take, [Math.min(...places) - MOST_POINT, Math.max(...places)]).walk()) {
    if (found.length === places.length) break;
    yield step;
  }
  return found;
}

class Seen {
  constructor(offset) {
    Object.assign(this, { offset, first: [], before: [], after: [], left: 0 });
  }

  take(field) {
    if (this.first.length < FIRST && field.from < this.offset) this.first.push(field);
    else if (field.from < this.offset) this.ring(field);
    else if (this.after.length <= NEAR) this.after.push(field);
  }

  ring(field) {
    this.before.push(field);
    if (this.before.length <= 2 * NEAR) return;
    this.before.splice(0, NEAR);
    this.left += NEAR;
  }

  has(from) {
    return [...this.first, ...this.before, ...this.after].some((field) => field.from === from);
  }

  answer(passed, bytes) {
    const told = (field) => shown(field, bytes), left = this.left + passed;
    return { begins: this.first.map(told), gap: left ? `${many(left, "more field")}, not shown` : "", near: [...this.before, ...this.after].map(told) };
  }
}

// A blob whose reading ends at a field.
class Stop {
  take(field) {
    if (field.stopped) this.field = shown(field, new Uint8Array());
  }

  detail(offset, length) {
    const { name, says } = this.field;
    return offset === length ? `The next field is “${name}”, and the file ends before it.` : `The field “${name}” begins at byte ${number(offset)}: ${says}.`;
  }
}

class FalseSize {
  take({ of, from }, offset) {
    if (from === offset && of.sizeAt === offset) this.of = of;
  }

  detail() {
    const { size, end, boxAt, type } = this.of;
    const apart = minus(size, end - boxAt), [by, how] = apart > 0 ? [apart, "large"] : [-apart, "small"];
    return `The size says ${many(size, "byte")} ${size === 1 ? "follows" : "follow"}, but this ${type} ends after ${number(end - boxAt)}. So the size is too ${how} by ${number(by)}.`;
  }

  *harm(bytes, start, end, blob) {
    const { size, boxAt, type } = this.of, to = plus(boxAt, size);
    const place = yield* landing(bytes, start, end, blob, this.of, to);
    return `A reader that hops over this ${type} by its size lands at byte ${number(to)}, ${place}. It loses or misreads what follows.`;
  }
}

// Where a reader lands that hops to a place from a geometry of this blob.
function* landing(bytes, start, end, blob, of, to) {
  if (to > bytes.length) return "beyond the end of the file";
  if (to === bytes.length) return "at the end of the file";
  if (to < end) {
    const where = to < of.end ? `inside this ${of.type}` : "inside this blob";
    let found = null;
    const take = (field) => (found = field.from <= to && to < field.to ? shown(field, bytes) : found);
    yield* new Fields(bytes, start, take, [to - MOST_POINT, to]).walk();
    return found ? `${where}, ${found.from === to ? "at" : "in the middle of"} the field “${found.name}”` : where;
  }
  for (let at = end, next = blob + 1; ; next++) {
    if (at === to) return `at the start of blob ${number(next)}`;
    const fields = new Fields(bytes, at, () => {}, [0, 0]), isWhole = yield* fields.walk();
    if (to < fields.at) return `in the middle of blob ${number(next)}, which begins at byte ${number(at)}`;
    if (!isWhole) return "in bytes that can't be read on";
    at = fields.at;
  }
}

class FalseBox {
  constructor() {
    this.xy = [];
  }

  take(field, offset) {
    if (field.from === offset && field.of.boxAt === offset) this.of = field.of;
    if (field.axis !== undefined) this.coordinate(field.of, field.axis, field.sum, field.from, field.vertex);
  }

  // What makes a box false may lie far after it.
  coordinate(of, axis, sum, from, vertex = of.vertices) {
    if (!this.of || !this.isBelow(of)) return;
    if (!this.found) this.judge(of, axis, sum, from, vertex);
    if (axis < 2 && this.xy.length < 2 * MOST_SHOWN) this.xy.push(near(sum, of.precisions[axis]));
  }

  isBelow(of) {
    return of === this.of || (of.parent !== null && this.isBelow(of.parent));
  }

  judge(of, axis, sum, from, vertex) {
    const range = this.of.box[axis], [ours, its] = [this.of.precisions[axis], of.precisions[axis]];
    if (!range) return;
    const [at, low, high] = ours === its ? [sum, ...range] : [inUnits(sum, its), ...range.map((end) => inUnits(end, ours))];
    if (at < low || at > high) this.found = { axis, vertex, from, at: decimal(sum, its), range, place: this.xy.length >> 1 };
  }

  guilty() {
    return this.found ? [this.found.from] : [];
  }

  // What can be drawn of it: the vertices, the box in X and Y, and which vertex is outside.
  outside() {
    if (!this.found || this.found.axis > 1 || 2 * this.found.place + 1 >= this.xy.length) return null;
    const [x, y] = [0, 1].map((axis) => this.of.box[axis].map((end) => near(end, this.of.precisions[axis])));
    return { xy: Float64Array.from(this.xy), box: [x[0], y[0], x[1], y[1]], vertex: this.found.place };
  }

  detail() {
    const { axis, vertex, from, at, range } = this.found, name = AXES[axis];
    const [low, high, extent] = [...range, minus(range[1], range[0])].map((end) => decimal(end, this.of.precisions[axis]));
    const has = `Vertex ${number(vertex)}, at byte ${number(from)}, has ${name} = ${at}.`;
    if (range[1] < range[0]) return `The extent of ${name} in the box of this ${this.of.type} is negative: ${name} begins at ${low}, and its extent is ${extent}. No vertex is in such a box. ${has}`;
    return `The box of this ${this.of.type} says that ${name} runs from ${low} to ${high}. ${has}`;
  }
}

// For drawing.
const near = (number, precision) => Number(number) / 10 ** precision;

// What has ids, by its type.
const OF_TYPES = { multipoint: "points", multilinestring: "lines", multipolygon: "polygons", collection: "members" };

class EqualIds {
  constructor() {
    this.first = new Map();
  }

  take(field, offset) {
    if (field.from === offset) this.of = field.of;
    if (field.of !== this.of || field.id === undefined || this.found) return;
    const { number: id, id: other, from } = field, one = this.first.get(id);
    if (one) this.found = { id, one: one.at, other, places: [one.from, from] };
    this.first.set(id, { at: other, from });
  }

  guilty() {
    return this.found.places;
  }

  meaning() {
    return `The ${OF_TYPES[this.of.type]} of a ${this.of.type} may have ids, to look them up by. Two ids in this list are equal.`;
  }

  detail() {
    const { id, one, other } = this.found;
    return `The ids at positions ${number(one)} and ${number(other)} of this list (counted from 0) are both ${id}.`;
  }
}

const LOOKS = { [FALSE_SIZE]: () => new FalseSize(), [FALSE_BOX]: () => new FalseBox(), [EQUAL_IDS]: () => new EqualIds() };
