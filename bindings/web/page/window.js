// Windows: as ends that are dragged, and as the text that the proved module reads. The text is what is scanned.
const MOST_DECIMALS = 7;
// From here on toFixed writes an exponent.
const GREATEST_FIXED = 1e21;
// A window is wider than this share of its distance from 0: doubles end there.
const FINEST = 1e-11;

// How many decimals a drag gives, where a pixel has this width: they tell about a tenth of a pixel.
function decimals(pixel) {
  return Math.min(MOST_DECIMALS, Math.max(0, Math.ceil(-Math.log10(pixel)) + 1));
}

// What is typed, as the text of a window that the proved module reads: four numbers (lowest X, lowest Y, highest X, highest Y), spaces
// and exponents are understood. Else what is wrong with it.
export function understood(typed) {
  const text = typed.replace(/\s+/g, " ").trim(), four = text.split(/\s*,\s*|\s+/);
  if (!text) return { wrong: "Nothing is typed. Write x=lowest..highest,y=lowest..highest." };
  if (four.length === 4 && four.every((one) => NUMBER.test(one))) {
    const [x0, y0, x1, y1] = four.map(spelledOut);
    return { text: `x=${x0}..${x1},y=${y0}..${y1}` };
  }
  const ranges = text.replace(/ /g, "").split(",");
  const wrong = ranges.map((range, i) => wrongIn(range, i, ranges)).find(Boolean) ?? (ranges.length < 2 ? "The range of Y is missing: add ,y=lowest..highest." : null);
  if (wrong) return { wrong };
  return { text: ranges.map((range) => range.replace(RANGE, (_, axis, low, high) => `${axis.toLowerCase()}=${spelledOut(low)}..${spelledOut(high)}`)).join(",") };
}

const NUMBER = /^[+-]?(?:\d+\.?\d*|\.\d+)(?:e[+-]?\d{1,2})?$/i, RANGE = /^([a-z]+)=(.*?)\.\.(.*)$/i;
const ORDER = ["x", "y", "z", "m"];

function wrongIn(range, i, ranges) {
  const parts = range.match(RANGE), axis = parts?.[1].toLowerCase(), places = ranges.slice(0, i).map((one) => ORDER.indexOf(one[0]?.toLowerCase()));
  if (!parts) return `“${range}” isn't a range. Write it as ${ORDER[Math.min(i, 3)]}=lowest..highest.`;
  if (!ORDER.includes(axis)) return `“${parts[1]}” is no axis: the axes are x, y, z and m.`;
  if (i < 2 && axis !== ORDER[i]) return `The range of ${ORDER[i].toUpperCase()} is missing before “${range}”: write x first, then y.`;
  if (places.includes(ORDER.indexOf(axis))) return `The range of ${axis.toUpperCase()} is there twice.`;
  if (places.some((place) => place > ORDER.indexOf(axis))) return `“${range}” comes too late: the order is x, y, z, m.`;
  const not = parts.slice(2).find((one) => !NUMBER.test(one));
  if (not !== undefined) return `“${not}” isn't a number.`;
  const long = parts.slice(2).find((one) => (spelledOut(one).split(".")[1] ?? "").length > MOST_DECIMALS);
  return long && `“${long}” has more than ${MOST_DECIMALS} decimals.`;
}

// A number without an exponent, a plus sign or a bare point.
function spelledOut(typed) {
  const [, sign, whole, decimals = "", power = "0"] = typed.match(/^([+-]?)(\d*)\.?(\d*)(?:e([+-]?\d+))?$/i), by = Number(power);
  const digits = whole + decimals, point = whole.length + by;
  const padded = "0".repeat(Math.max(0, 1 - point)) + digits + "0".repeat(Math.max(0, point - digits.length));
  const at = Math.max(1, point), before = padded.slice(0, at).replace(/^0+(?=\d)/, ""), after = padded.slice(at);
  const kept = by ? after.replace(/0+$/, "") : after;
  return `${sign === "-" ? "-" : ""}${before}${kept ? `.${kept}` : ""}`;
}

// The text of a window with these ends (X from, X to, Y from, Y to), and what the text before said of Z and M.
export function textOf([x0, x1, y0, y1], pixel, before = "") {
  const places = decimals(pixel);
  const spell = (end) => {
    if (Math.abs(end) >= GREATEST_FIXED) return BigInt(Math.round(end)).toString();
    const text = end.toFixed(places);
    return places ? text.replace(/\.?0+$/, "").replace(/^-0$/, "0") : text.replace(/^-0$/, "0");
  };
  const further = before.match(/(?:,z=[^,]*)?(?:,m=[^,]*)?$/)[0];
  return `x=${spell(x0)}..${spell(x1)},y=${spell(y0)}..${spell(y1)}${further}`;
}

// The ends in order, whichever corner was dragged past which.
export function ordered([x0, x1, y0, y1]) {
  return [Math.min(x0, x1), Math.max(x0, x1), Math.min(y0, y1), Math.max(y0, y1)];
}

export const moved = ([x0, x1, y0, y1], dx, dy) => [x0 + dx, x1 + dx, y0 + dy, y1 + dy];

// A window scaled about its middle.
export function scaled([x0, x1, y0, y1], by) {
  const [x, y, w, h] = [(x0 + x1) / 2, (y0 + y1) / 2, ((x1 - x0) * by) / 2, ((y1 - y0) * by) / 2];
  return [x - w, x + w, y - h, y + h];
}

// A window on a part of the map, which is given by its lowest and highest X and Y: round its middle, or round another place.
export function windowIn([x0, y0, x1, y1], [x, y] = [(x0 + x1) / 2, (y0 + y1) / 2]) {
  const [w, h] = [Math.max((x1 - x0) / 8, FINEST * Math.abs(x)), Math.max((y1 - y0) / 6, FINEST * Math.abs(y))];
  return [x - w, x + w, y - h, y + h];
}

// What of a window is held at a place: which ends move. Null is outside; near is the reach in the map's measure.
export function grip([x0, x1, y0, y1], [x, y], near) {
  if (x < x0 - near || x > x1 + near || y < y0 - near || y > y1 + near) return null;
  const on = (end, at) => Math.abs(end - at) <= near;
  const ends = [on(x0, x), on(x1, x) && !on(x0, x), on(y0, y), on(y1, y) && !on(y0, y)];
  return ends.some(Boolean) ? ends : [true, true, true, true];
}

// The window with the held ends moved.
export function dragged(window, held, dx, dy) {
  return window.map((end, i) => (held[i] ? end + (i < 2 ? dx : dy) : end));
}

// The address has the last window, and the name of its file, so that it can be sent to someone who has the file.
export function inAddress(text, name) {
  history.replaceState(null, "", `#${text}&file=${encodeURIComponent(name)}`);
}

// The window of the address and its file, where they can be read.
export function ofAddress() {
  try {
    const [text, file] = location.hash.slice(1).split("&file=").map(decodeURIComponent);
    return { text: understood(text).text, file };
  } catch {
    return {};
  }
}
