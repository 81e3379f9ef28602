// The fields of a blob by their names, as far as they can be read: for people who look at bytes.
//
// Any bytes may be walked here. A field that the bytes cut short, or that can't follow where it is, ends the walk.
import { AXES, BOX, COLLECTION, EMPTY, EXTENDED, IDS, LINESTRING, MULTILINESTRING, MULTIPOINT, POINT, POLYGON, SIZE, TYPES } from "./format.js";
import { decimal, many, plus, Reader, unzigzag } from "./numbers.js";

const PARTS = ["", "", "point", "ring", "point", "line", "polygon", "member"];
const DEEPEST = 64, LONGEST = 10;
const LEAST = -(2n ** 63n), GREATEST = 2n ** 63n - 1n;
// How many points or ids are walked at once.
const RUN = 16384;

class Ended extends Error {}

export class Fields extends Reader {
  // `take(field)` gets each field; `of` is the geometry that it is of. Points whose bytes lie outside the range from `shown[0]` to
  // `shown[1]` are passed, and `pass(of, axis, sum, from)` gets their coordinates: the bytes before a refused place are well formed, and
  // so is all of a blob with a false claim.
  constructor(bytes, at, take, shown = [0, Infinity], pass = null) {
    super(bytes, at);
    Object.assign(this, { take, shown, passing: pass, passed: 0 });
  }

  // Walks a blob, and says whether it ends. Yields on the way.
  *walk() {
    try {
      yield* this.geometry(1, null);
      return true;
    } catch (error) {
      if (error instanceof Ended) return false;
      throw error;
    }
  }

  // A field is told also where it ends the walk, with what there is of it. Its name and what it says may be functions, since
  // most fields are never shown.
  tell(from, name, says, of, more = {}) {
    this.take({ from, to: this.at, name, says, depth: of.depth, of, ...more });
  }

  stop(from, name, says, of) {
    this.tell(from, name, says, of, { stopped: true });
    throw new Ended();
  }

  byte(name, of) {
    const from = this.at;
    if (from >= this.bytes.length) this.stop(from, name, "the file ends here", of);
    return this.bytes[this.at++];
  }

  // A number, where all of it is there.
  varint(name, of) {
    const from = this.at;
    for (let i = 0; ; i++) {
      if (from + i >= this.bytes.length) {
        this.at = this.bytes.length;
        this.stop(from, name, i ? "the file ends inside this number" : "the file ends here", of);
      }
      const byte = this.bytes[from + i];
      if (i === LONGEST - 1 && byte > 1) {
        this.at = from + LONGEST;
        this.stop(from, name, "a number of more than 64 bits", of);
      }
      if (byte < 128) return super.unsigned();
    }
  }

  field(name, of, says) {
    const from = this.at, number = this.varint(name, of);
    this.tell(from, name, () => says(number), of, { number });
    return number;
  }

  signedField(name, of, says, more) {
    const from = this.at, number = unzigzag(this.varint(name, of));
    this.tell(from, name, () => says(number), of, { number, ...more });
    return number;
  }

  *geometry(depth, parent) {
    const of = { depth, parent, start: this.at, sums: [0, 0, 0, 0], vertices: 0 };
    this.header(of);
    if (!of.empty) yield* this.body(of);
    of.end = this.at;
  }

  header(of) {
    this.type(of);
    this.metadata(of);
    if (of.extended) this.dimensions(of);
    of.sizeAt = this.at;
    if (of.hasSize) of.size = this.field("size", of, (n) => `${many(n, "byte")} to the end of this ${of.type}`);
    of.boxAt = this.at;
    if (of.hasBox) this.box(of);
  }

  type(of) {
    const from = this.at, byte = this.byte("type and precision", of);
    of.kind = byte & 15;
    of.type = TYPES[of.kind];
    of.precisions = [unzigzag(byte >> 4), unzigzag(byte >> 4)];
    if (!of.type) this.stop(from, "type and precision", `type ${of.kind}, but the types are 1 to 7`, of);
    if (of.kind === COLLECTION && of.depth === DEEPEST) this.stop(from, "type and precision", `a collection inside ${DEEPEST - 1} others`, of);
    this.tell(from, "type and precision", `${of.type}, precision ${of.precisions[0]}`, of);
  }

  metadata(of) {
    const from = this.at, byte = this.byte("metadata", of);
    [of.hasBox, of.hasSize, of.hasIds, of.extended, of.empty] = [BOX, SIZE, IDS, EXTENDED, EMPTY].map((bit) => !!(byte & bit));
    of.hasIds &&= of.kind >= MULTIPOINT;
    const there = [of.hasSize && "a size", of.hasBox && "a box", of.hasIds && "ids", of.extended && "more axes", of.empty && "empty"];
    this.tell(from, "metadata", there.filter(Boolean).join(", ") || "no size, no box", of);
  }

  dimensions(of) {
    const from = this.at, byte = this.byte("extended dimensions", of);
    of.precisions[2] = byte & 1 ? (byte >> 2) & 7 : undefined;
    of.precisions[3] = byte & 2 ? byte >> 5 : undefined;
    const there = [byte & 1 && `Z, precision ${of.precisions[2]}`, byte & 2 && `M, precision ${of.precisions[3]}`];
    this.tell(from, "extended dimensions", there.filter(Boolean).join("; ") || "none", of);
  }

  axes(of) {
    return [0, 1, 2, 3].filter((axis) => of.precisions[axis] !== undefined);
  }

  box(of) {
    of.box = [];
    for (const axis of this.axes(of)) {
      const precision = of.precisions[axis];
      const low = this.signedField(`box, lowest ${AXES[axis]}`, of, (n) => decimal(n, precision));
      const says = (n) => (n < 0 ? `${decimal(n, precision)}: negative, so no vertex is in this box` : `${decimal(n, precision)}, so up to ${decimal(plus(low, n), precision)}`);
      const extent = this.signedField(`box, extent of ${AXES[axis]}`, of, says);
      of.box[axis] = [low, plus(low, extent)];
    }
  }

  *body(of) {
    const { kind } = of;
    if (kind === POINT) return this.point(of, this.axes(of), [""]);
    const count = this.count(`count of ${PARTS[kind]}s`, of, PARTS[kind]);
    if (kind === LINESTRING) return yield* this.points(of, count, "");
    if (kind === POLYGON) return yield* this.lines(of, count, "ring ");
    if (of.hasIds) yield* this.ids(of, count);
    if (kind === MULTIPOINT) return yield* this.points(of, count, "");
    if (kind === MULTILINESTRING) return yield* this.lines(of, count, "line ");
    for (let i = 0; i < count; i++) {
      if (kind === COLLECTION) yield* this.geometry(of.depth + 1, of);
      else yield* this.lines(of, this.count(`polygon ${i}, count of rings`, of, "ring"), `polygon ${i}, ring `);
    }
  }

  count(name, of, part) {
    return this.field(name, of, (n) => many(n, part));
  }

  *ids(of, count) {
    of.idsAt = this.at;
    for (let i = 0; i < count; i++) {
      this.signedField(() => `id ${i}`, of, String, { id: i });
      if (i % RUN === RUN - 1) yield this.at;
    }
  }

  *lines(of, count, name) {
    for (let i = 0; i < count; i++) {
      const points = this.count(`${name}${i}, count of points`, of, "point");
      yield* this.points(of, points, `${name}${i}, `);
    }
  }

  *points(of, count, name) {
    const axes = this.axes(of);
    for (let i = 0; i < count; i++) {
      if (this.at < this.shown[0] || this.at > this.shown[1]) this.pass(of, axes);
      else this.point(of, axes, [name, i]);
      if (i % RUN === RUN - 1) yield this.at;
    }
  }

  pass(of, axes) {
    const isBefore = this.at < this.shown[0];
    for (const axis of axes) {
      const from = this.at;
      of.sums[axis] = plus(of.sums[axis], unzigzag(this.varint("", of)));
      this.passing?.(of, axis, of.sums[axis], from);
    }
    of.vertices++;
    if (isBefore) this.passed += axes.length;
  }

  point(of, axes, place) {
    const vertex = of.vertices;
    for (const axis of axes) {
      const from = this.at, before = of.sums[axis], precision = of.precisions[axis];
      const name = () => `${this.placed(place)}${AXES[axis]}`;
      const step = unzigzag(this.varint(name, of)), sum = plus(before, step);
      if (typeof sum === "bigint" && (sum < LEAST || sum > GREATEST)) this.stop(from, name, () => beyond(sum, precision), of);
      const says = () => decimal(sum, precision) + (vertex ? ` (${step < 0 ? "" : "+"}${decimal(step, precision)})` : "");
      of.sums[axis] = sum;
      this.tell(from, name, says, of, { axis, vertex, sum });
    }
    of.vertices++;
  }

  placed([name, i]) {
    return i === undefined ? name : `${name}point ${i}, `;
  }
}

// What a coordinate says that 64 bits can't hold.
function beyond(sum, precision) {
  const [side, limit] = sum < 0 ? ["below the least", LEAST] : ["above the greatest", GREATEST];
  return `${decimal(sum, precision)}, which is ${side} coordinate of 64 bits, ${decimal(limit, precision)}`;
}

// A field as it is shown, with its bytes.
export function shown({ from, to, name, says, depth, stopped }, bytes) {
  const text = (given) => (typeof given === "function" ? given() : given);
  return { from, to, bytes: bytes.slice(from, to), name: text(name), says: text(says), depth, stopped: !!stopped };
}
