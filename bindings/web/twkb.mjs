// The module twkb_web.wasm, for what tests it. It has a memory of 32 bits, and its functions take and give BigInts.
// The layouts are written by hand beside crates/twkb_call, which proves the sizes.
const KINDS = ["", "cut", "varint", "type", "depth", "range", "size", "box", "ids", "loose"];
const PAGE = 65536;
const VERDICT = 40, LAYER = 32, WINDOW = 136, HIT = 24, ROW = 40, POINT = 32, ID = 8;

export function load(module) {
  return new Library(new WebAssembly.Instance(new WebAssembly.Module(module), {}).exports);
}

class Library {
  // All from the heap's base on is the caller's: first what crosses beside the bytes, then the bytes, then the room.
  constructor(exports) {
    this.exports = exports;
    this.out = aligned(Number(exports.__heap_base.value));
    this.layer = this.out + aligned(VERDICT);
    this.window = this.layer + LAYER;
    this.bytes = this.window + aligned(WINDOW);
  }

  #view(at, length) {
    const lacks = at + length - this.exports.memory.buffer.byteLength;
    if (lacks > 0) this.exports.memory.grow(Math.ceil(lacks / PAGE));
    return new DataView(this.exports.memory.buffer, at, length);
  }

  // Copies the bytes in, and certifies them with room for `ids` ids of a list, each of which takes a byte at least. Later
  // calls are of the layer that is certified.
  certify(bytes, tight = false, ids = bytes.length) {
    this.#view(this.bytes, bytes.length);
    new Uint8Array(this.exports.memory.buffer, this.bytes, bytes.length).set(bytes);
    return this.certifyAgain(bytes.length, tight, ids);
  }

  // Certifies the first of the bytes that were copied in.
  certifyAgain(length, tight = false, ids = length) {
    const call = tight ? this.exports.twkb_certify_tight : this.exports.twkb_certify;
    this.room = this.bytes + aligned(length);
    this.#view(this.room, ids * ID);
    call(BigInt(this.out), BigInt(this.bytes), BigInt(length), BigInt(this.room), BigInt(ids));
    const verdict = this.#view(this.out, VERDICT);
    const number = (at) => Number(verdict.getBigUint64(at, true));
    switch (verdict.getUint32(0, true)) {
      case 0:
        return this.take(0, length, number(8), number(16));
      case 1:
        return { answer: "no", blob: number(24), offset: number(32), kind: KINDS[verdict.getUint32(4, true)] };
      default:
        return { answer: "memory" };
    }
  }

  // Makes these bytes the layer of later calls.
  take(offset, length, blobs, vertices) {
    const layer = this.#view(this.layer, LAYER);
    [this.bytes + offset, length, blobs, vertices].forEach((word, i) => layer.setBigUint64(8 * i, BigInt(word), true));
    return { answer: "ok", length, blobs, vertices };
  }

  // The rows that fit, and how many blobs there are.
  list(places) {
    const room = this.#view(this.room, places * ROW);
    const count = Number(this.exports.twkb_list(BigInt(this.layer), BigInt(this.room), BigInt(places)));
    const row = (at) => ({
      blob: Number(room.getBigUint64(at, true)),
      offset: Number(room.getBigUint64(at + 8, true)),
      bytes: Number(room.getBigUint64(at + 16, true)),
      vertices: Number(room.getBigUint64(at + 24, true)),
      kind: room.getUint8(at + 32),
      precision: room.getInt8(at + 33),
      hasSize: room.getUint8(at + 34) === 1,
      hasBox: room.getUint8(at + 35) === 1,
    });
    return { count, rows: each(places, count, ROW, row) };
  }

  // Reads the text of a window for later scans: 0, or 1 for its form, 2 for its order.
  parse(text) {
    const bytes = new TextEncoder().encode(text);
    new Uint8Array(this.#view(this.window, WINDOW).buffer, this.window, WINDOW).fill(0);
    this.#view(this.room, bytes.length);
    new Uint8Array(this.exports.memory.buffer, this.room, bytes.length).set(bytes);
    return this.exports.twkb_window_parse(BigInt(this.room), BigInt(bytes.length), BigInt(this.window));
  }

  // The hits that fit, how many there are, and how many bytes were read.
  scan(places) {
    const room = this.#view(this.room, places * HIT);
    this.exports.twkb_scan(BigInt(this.out), BigInt(this.layer), BigInt(this.window), BigInt(this.room), BigInt(places));
    const scanned = this.#view(this.out, 16);
    const count = Number(scanned.getBigUint64(0, true));
    const hit = (at) => ({ blob: Number(room.getBigUint64(at, true)), offset: Number(room.getBigUint64(at + 8, true)) });
    return { count, read: scanned.getBigUint64(8, true), hits: each(places, count, HIT, hit) };
  }

  // X and Y of the vertices that fit, in units, and how many vertices there are.
  draw(places) {
    const room = this.#view(this.room, places * POINT);
    const count = Number(this.exports.twkb_draw(BigInt(this.layer), BigInt(this.room), BigInt(places)));
    const units = (at) => (room.getBigInt64(at + 8, true) << 64n) + room.getBigUint64(at, true);
    return { count, points: each(places, count, POINT, (at) => [units(at), units(at + 16)]) };
  }
}

function aligned(number) {
  return (number + 15) & ~15;
}

// The values in the room, as many as there are and fit.
function each(places, count, size, read) {
  return Array.from({ length: Math.min(places, count) }, (_, i) => read(i * size));
}
