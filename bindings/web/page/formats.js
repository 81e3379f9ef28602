// What a file is that isn't TWKB: the usual formats by how they begin, and what makes TWKB of each. Texts and gzip data that mean a
// layer are read as that layer.
const LOOKED_AT = 512, LEAST_DIGITS = 8;
const FROM_POSTGIS = "PostGIS can write TWKB with ST_AsTWKB.";
const LOADED = (tool) => `\`${tool}\` loads it into PostGIS, and ST_AsTWKB writes TWKB there.`;
const UNPACK = (command) => `\`${command}\` unpacks it.`;
// After how many bytes of text its decoding yields.
const BYTES_OF_TEXT = 65536;

// What the file begins with, in hexadecimal, what that is, and what helps.
const SIGNATURES = [
  ["1f8b", "gzip data", UNPACK("gunzip"), "gzip"],
  ["504b0304", "a zip archive", UNPACK("unzip")],
  ["28b52ffd", "zstd data", UNPACK("unzstd")],
  ["425a68", "bzip2 data", UNPACK("bunzip2")],
  ["fd377a585a00", "xz data", UNPACK("unxz")],
  ["66676203", "FlatGeobuf", LOADED("ogr2ogr")],
  ["0000270a", "a shapefile", LOADED("shp2pgsql")],
  ["53514c69746520666f726d6174203300", "an SQLite database, such as a GeoPackage", LOADED("ogr2ogr")],
  ["5047434f50590aff0d0a00", "binary output of PostgreSQL's COPY", "Write the column's bytes alone, as `examples/scripts/publish_layer.sh` does."],
  ["504d54696c6573", "PMTiles", "It holds tiles for display. Make TWKB of what they were made of."],
  ["49492a00", "a TIFF image", ""],
  ["4d4d002a", "a TIFF image", ""],
  ["49492b00", "a TIFF image", ""],
  ["4152524f5731", "Arrow", FROM_POSTGIS],
  ["ffffffff", "an Arrow stream", FROM_POSTGIS],
  ["50415231", "Parquet", FROM_POSTGIS],
  ["89504e47", "a PNG image", ""],
  ["255044462d", "a PDF document", ""],
  ["efbbbf", "text with a byte order mark", FROM_POSTGIS],
  ["fffe", "UTF-16 text", FROM_POSTGIS],
  ["feff", "UTF-16 text", FROM_POSTGIS],
];
const WORDS = /^(?:SRID=\d+;)?(?:POINT|LINESTRING|POLYGON|MULTI\w+|GEOMETRYCOLLECTION)\s*(?:Z|M|ZM|EMPTY)?\s*\(/i;

// Says what the bytes look like, what to do, and how they are decoded where they may mean a layer; null where they look like nothing known.
export function recognised(bytes) {
  const front = bytes.slice(0, LOOKED_AT);
  const hex = [...front.subarray(0, 16)].map((byte) => byte.toString(16).padStart(2, "0")).join("");
  const found = SIGNATURES.find(([begins]) => hex.startsWith(begins));
  if (found) return { what: found[1], how: found[2], decode: found[3] };
  if (isWkb(front, 0)) return { what: "WKB", how: "Export it with ST_AsTWKB instead of ST_AsBinary or the bare geometry column." };
  if (isTile(bytes)) return { what: "a vector tile (MVT)", how: "It is for display. Make TWKB of what it was made of." };
  const isText = front.length > 0 && front.every((byte) => (byte >= 32 && byte < 127) || (byte >= 9 && byte <= 13));
  return isText ? ofText(new TextDecoder().decode(front), front.length === bytes.length) : null;
}

function ofText(text, isWhole) {
  const digits = text.replace(/\\x|\s/g, "");
  if (/^[\da-f]+$/i.test(digits) && (digits.length >= LEAST_DIGITS || isWhole)) return ofDigits(text, digits);
  const begins = text.trimStart();
  if (/^[[{]/.test(begins)) return { what: "JSON", how: "ST_AsTWKB(ST_GeomFromGeoJSON(..)) in PostGIS makes TWKB of GeoJSON." };
  if (WORDS.test(begins)) return { what: "WKT", how: "ST_AsTWKB(ST_GeomFromText(..)) in PostGIS makes TWKB of it." };
  if (begins.startsWith("<")) return { what: "XML or HTML", how: FROM_POSTGIS };
  if (/^[A-Za-z\d+/=\s]+$/.test(text) && /[A-Z]/.test(text) && /\d/.test(text) && !text.trim().includes(" ")) {
    return { what: "base64 text", how: "Convert it to bytes with `base64 -d`.", decode: "base64" };
  }
  return { what: "text", how: FROM_POSTGIS };
}

function ofDigits(text, digits) {
  const inside = Uint8Array.from(digits.match(/../g) ?? [], (two) => parseInt(two, 16));
  if (isWkb(inside, 0)) return { what: "hexadecimal text of WKB", how: "Write `encode(ST_AsTWKB(..), 'hex')` in its place, and convert it to bytes with `xxd -r -p`." };
  const isEscaped = text.trimStart().startsWith("\\x");
  const command = isEscaped ? "sed 's/^\\\\x//' | xxd -r -p" : "xxd -r -p";
  return { what: isEscaped ? "hexadecimal text of rows, as psql prints them" : "hexadecimal text", how: `Convert it to bytes with \`${command}\`.`, decode: "hexadecimal" };
}

// WKB begins with the order of its bytes and a type of four bytes. So may TWKB, so the first coordinate has to be plausible too.
function isWkb(bytes, at, depth = 0) {
  const view = new DataView(bytes.buffer, bytes.byteOffset, bytes.length), little = view.byteLength > at && view.getUint8(at) === 1;
  if (view.byteLength < at + 21 || view.getUint8(at) > 1 || depth > 2) return false;
  const word = view.getUint32(at + 1, little), type = (word & 0xfffffff) % 1000;
  if (type < 1 || type > 7 || (word & 0xfffffff) >= 4000) return false;
  const body = at + 5 + (word & 0x20000000 ? 4 : 0);
  if (type > 3) return isWkb(bytes, body + 4, depth + 1);
  const place = body + 4 * (type - 1);
  return [place, place + 8].every((one) => one + 8 <= view.byteLength && isPlausible(view.getFloat64(one, little)));
}

function isPlausible(coordinate) {
  const size = Math.abs(coordinate);
  return size === 0 || (size > 1e-9 && size < 1e9);
}

// A vector tile is a message whose first field is a layer: field 3, its length, and in it a version 2 or 1, or a name of letters.
function isTile(bytes) {
  if (bytes[0] !== 0x1a) return false;
  let length = 0, at = 1;
  do length += (bytes[at] & 127) * 128 ** (at - 1);
  while (bytes[at++] >= 128 && at < 6);
  if (at + length > bytes.length || length < 4) return false;
  if (bytes[at] === 0x78) return bytes[at + 1] === 1 || bytes[at + 1] === 2;
  const name = bytes.subarray(at + 2, at + 2 + bytes[at + 1]);
  return bytes[at] === 0x0a && name.length > 0 && name.every((byte) => byte >= 32 && byte < 127);
}

const placesOf = (letters) => Int8Array.from({ length: 256 }, (_, byte) => letters.indexOf(String.fromCharCode(byte)));
const SIXES = placesOf("ABCDEFGHIJKLMNOPQRSTUVWXYZabcdefghijklmnopqrstuvwxyz0123456789+/");
const DIGITS = placesOf("0123456789abcdef").map((digit, byte) => (byte >= 65 && byte <= 70 ? byte - 55 : digit));
const [SPACE, BACKSLASH, X, PADDING] = [32, 92, 120, 61];

// The bytes that digits mean, or null where they mean none. Yields on the way.
function* hexadecimal(bytes) {
  const out = new Uint8Array(bytes.length >> 1);
  let used = 0, high = -1;
  for (let at = 0; at < bytes.length; at++) {
    if (at % BYTES_OF_TEXT === BYTES_OF_TEXT - 1) yield [at, bytes.length];
    const byte = bytes[at], digit = DIGITS[byte];
    if (digit >= 0 && high >= 0) [out[used++], high] = [16 * high + digit, -1];
    else if (digit >= 0) high = digit;
    else if (high >= 0) return null;
    else if (byte === BACKSLASH && bytes[at + 1] === X) at++;
    else if (byte > SPACE) return null;
  }
  return high < 0 ? out.subarray(0, used) : null;
}

// The bytes that base64 means, or null where it means none. Yields on the way.
function* base64(bytes) {
  const out = new Uint8Array(Math.ceil(bytes.length * 0.75));
  let used = 0, bits = 0, held = 0;
  for (let at = 0; at < bytes.length; at++) {
    if (at % BYTES_OF_TEXT === BYTES_OF_TEXT - 1) yield [at, bytes.length];
    const byte = bytes[at], six = SIXES[byte];
    if (six >= 0) [bits, held] = [((bits << 6) | six) & 0xffff, held + 6];
    else if (byte === PADDING) held = 0;
    else if (byte > SPACE) return null;
    if (held >= 8) [out[used++], held] = [(bits >> (held - 8)) & 255, held - 8];
  }
  return out.subarray(0, used);
}

export const DECODERS = { hexadecimal, base64 };
