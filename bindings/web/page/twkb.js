// The library over the proved module: the layer's bytes, and what is lent for answers, in the module's own memory.
//
// From __heap_base on all memory is the page's. First come small forms, then the layer, and after it the room that a call
// is lent: for ids, rows, hits or points, one at a time. Numbers in the module's forms have 64 bits; those that are at most
// the length of a layer have their upper half 0.
import { BOX, COLLECTION, EXTENDED, SIZE, UNITS } from "./format.js";

const PAGE = 65536;
// Bytes of each form, as in the module.
const ROW = 40, HIT = 24, POINT = 32;
// In a window's form the marks of Z and M come after the ends of four axes.
const WINDOW_FLAGS = 128;
// Places of the small forms after the base.
const ANSWER = 0, LAYER = 64, WINDOW_AT = 128, PROBE = 272, TEXT = 416, SMALL = 4096;
const LONGEST_TEXT = SMALL - TEXT;
// The least room for ids, in places, and how many bytes a place takes.
const LEAST_IDS = 1 << 17, ID = 8;
// No coordinate is as far from 0 as this, in units.
const FAR = 10n ** 34n;
// A body of one member, which is an empty point, and the most bytes that a header with it has.
const EMPTY_MEMBER = [1, 1, 16], MOST_PROBE = 96;

export class NoMemory extends Error {}

export class Library {
  constructor(exports) {
    this.exports = exports;
    this.base = (Number(exports.__heap_base.value) + 15) & ~15;
    this.start = this.base + SMALL;
    this.length = 0;
    this.look();
    this.reserve(this.start);
  }

  static async load(bytes) {
    return new Library((await WebAssembly.instantiate(bytes, {})).instance.exports);
  }

  // Growing leaves the views of before without memory.
  look() {
    const { buffer } = this.exports.memory;
    this.words = new Int32Array(buffer);
    this.memory = new Uint8Array(buffer);
  }

  reserve(end) {
    const lacks = end - this.memory.length;
    if (lacks <= 0) return;
    try {
      this.exports.memory.grow(Math.ceil(lacks / PAGE));
    } catch {
      throw new NoMemory();
    }
    this.look();
  }

  // Room after the layer, of this many bytes.
  lend(bytes) {
    const at = (this.start + this.length + 15) & ~15;
    this.reserve(at + bytes);
    return at;
  }

  // Makes place for a layer of this length.
  begin(length) {
    this.length = 0;
    this.reserve(this.start + length);
    this.length = length;
  }

  put(at, chunk) {
    this.memory.set(chunk, this.start + at);
  }

  get bytes() {
    return this.memory.subarray(this.start, this.start + this.length);
  }

  u64(at) {
    return (this.words[at >> 2] >>> 0) + (this.words[(at >> 2) + 1] >>> 0) * 2 ** 32;
  }

  setWord(at, number) {
    this.words[at >> 2] = number;
    this.words[(at >> 2) + 1] = Math.floor(number / 2 ** 32);
  }

  // The verdict on the bytes from a place on. The ids of a list get more room until it is enough: an id takes a byte at least.
  certify(tight = false, from = 0, length = this.length) {
    const call = tight ? this.exports.twkb_certify_tight : this.exports.twkb_certify;
    const at = this.base + ANSWER;
    for (let places = LEAST_IDS; ; places = Math.min(4 * places, length)) {
      const ids = this.lend(places * ID);
      call(BigInt(at), BigInt(this.start + from), BigInt(length), BigInt(ids), BigInt(places));
      const [answer, kind] = [this.words[at >> 2], this.words[(at >> 2) + 1]];
      if (answer !== 2) {
        return { answer, kind, blobs: this.u64(at + 8), vertices: this.u64(at + 16), blob: this.u64(at + 24), offset: from + this.u64(at + 32) };
      }
      if (places >= length) throw new NoMemory();
    }
  }

  // Says which blobs the next calls are about: a run of them is a layer by itself.
  choose(from, length, blobs, vertices) {
    const at = this.base + LAYER;
    this.setWord(at, this.start + from);
    this.setWord(at + 8, length);
    this.setWord(at + 16, blobs);
    this.setWord(at + 24, vertices);
    this.layer ??= BigInt(at);
  }

  // The rows of the chosen blobs, as many as are wanted, column by column.
  list(most) {
    const at = this.lend(most * ROW);
    const count = Math.min(most, Number(this.exports.twkb_list(this.layer, BigInt(at), BigInt(most))));
    const [offset, bytes, vertices] = [0, 1, 2].map(() => new Uint32Array(count));
    const [kind, size, box] = [0, 1, 2].map(() => new Uint8Array(count));
    const precision = new Int8Array(count), { words, memory } = this;
    for (let i = 0, row = at; i < count; i++, row += ROW) {
      offset[i] = words[(row + 8) >> 2];
      bytes[i] = words[(row + 16) >> 2];
      vertices[i] = words[(row + 24) >> 2];
      kind[i] = memory[row + 32];
      precision[i] = memory[row + 33];
      size[i] = memory[row + 34];
      box[i] = memory[row + 35];
    }
    return { offset, bytes, vertices, kind, precision, size, box };
  }

  // Reads a window's text: 0 and the window is there, 1 the form is wrong, 2 a lower end is above its upper one.
  window(text) {
    const spelled = new TextEncoder().encode(text);
    if (spelled.length > LONGEST_TEXT) return { answer: 1 };
    this.memory.set(spelled, this.base + TEXT);
    const at = this.base + WINDOW_AT;
    this.frame = BigInt(at);
    const answer = Number(this.exports.twkb_window_parse(BigInt(this.base + TEXT), BigInt(spelled.length), this.frame));
    // X from, X to, Y from, Y to: each has sixteen bytes.
    const ends = [0, 16, 32, 48].map((place) => this.units(at + place) / UNITS);
    return { answer, ends };
  }

  // The number of 128 bits at a place, as near as a double comes.
  units(at) {
    const [low, high] = [this.u64(at), this.u64(at + 8)];
    const top = this.words[(at >> 2) + 3];
    if (top >= 0) return high * 2 ** 64 + low;
    // Of a negative number its distance from 0 is put together, which is exact where it is small.
    const [a, b, c, d] = [0, 1, 2, 3].map((i) => ~this.words[(at >> 2) + i] >>> 0);
    return -(((d * 2 ** 32 + c) * 2 ** 64) + (b * 2 ** 32 + a) + 1);
  }

  // Whether a vertex of the chosen blobs has a coordinate between two, which are in units, on one axis.
  has(axis, from, to) {
    const at = this.base + PROBE, view = new DataView(this.memory.buffer);
    const put = (place, units) => {
      view.setBigUint64(place, BigInt.asUintN(64, units), true);
      view.setBigInt64(place + 8, units >> 64n, true);
    };
    for (const one of [0, 1, 2, 3]) [one === axis ? from : -FAR, one === axis ? to : FAR].forEach((end, side) => put(at + 32 * one + 16 * side, end));
    [2, 3].forEach((one) => (this.memory[at + WINDOW_FLAGS + one - 2] = Number(one === axis)));
    return this.scan(0, BigInt(at)).hits > 0;
  }

  // Whether the vertices of the chosen blobs reach exactly from `low` to `high` on an axis, by proved scans: some are at the ends, none
  // beyond.
  reaches(axis, low, high) {
    const [from, to] = [BigInt(low), BigInt(high)], isAtEnds = this.has(axis, from, from) && this.has(axis, to, to);
    return isAtEnds && !this.has(axis, -FAR, from - 1n) && !this.has(axis, to + 1n, FAR);
  }

  // Scans the chosen blobs for the window that was read last, or for another one: how many hits, how many bytes read, and the first hits.
  scan(most, frame = this.frame) {
    const room = most ? this.lend(most * HIT) : this.start;
    const at = this.base + ANSWER;
    this.answer ??= BigInt(at);
    this.exports.twkb_scan(this.answer, this.layer, frame, BigInt(room), BigInt(most));
    const hits = this.u64(at);
    const first = [];
    for (let i = 0, hit = room; i < Math.min(hits, most); i++, hit += HIT) first.push([this.u64(hit), this.u64(hit + 8)]);
    return { hits, read: this.u64(at + 8), first };
  }

  // Whether the box of the blob that begins here misses the window that was read last. A collection with this box, a size and an
  // empty member is scanned: the scan reads no more than its header exactly where the box misses.
  misses(from) {
    const at = this.lend(MOST_PROBE) - this.start, { dimensions, box } = this.places(from);
    const first = (this.bytes[from] & 0xf0) | COLLECTION, metadata = SIZE | BOX | (dimensions.length ? EXTENDED : 0);
    const size = box.length + EMPTY_MEMBER.length;
    const probe = [first, metadata, ...dimensions, size, ...box, ...EMPTY_MEMBER];
    this.put(at, probe);
    this.choose(at, probe.length, 1, 0);
    return this.scan(0).read < probe.length;
  }

  // The bytes of the extended dimensions and of the box of the header that begins here and has a box.
  places(from) {
    const { bytes } = this, metadata = bytes[from + 1], dimensions = metadata & EXTENDED ? [bytes[from + 2]] : [];
    let at = from + 2 + dimensions.length;
    const skip = (numbers) => {
      for (let left = numbers; left > 0; ) left -= bytes[at++] < 128;
      return at;
    };
    const start = skip(metadata & SIZE ? 1 : 0), axes = 2 + [1, 2].filter((bit) => dimensions[0] & bit).length;
    return { dimensions, box: bytes.subarray(start, skip(2 * axes)) };
  }

  // Puts X and Y of the chosen blobs' vertices into the list, from a place on, and says how many there are.
  draw(list, from, most) {
    const room = this.lend(most * POINT);
    const count = Math.min(most, Number(this.exports.twkb_draw(this.layer, BigInt(room), BigInt(most))));
    for (let i = 0, at = room; i < count; i++, at += POINT) {
      list[2 * (from + i)] = this.units(at) / UNITS;
      list[2 * (from + i) + 1] = this.units(at + 16) / UNITS;
    }
    return count;
  }
}
