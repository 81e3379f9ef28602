// Paints the strip: the file in lines, with bars where the scan read, on a thin line for what it hopped over.
import { penOf } from "./paint.js";
import { HEADER, HIT, HOPPED, NAMES, READ } from "./states.js";

// What was read, from the bottom of a bar to its top.
const READS = [HEADER, READ, HIT], SHARES = NAMES.length;
const THIN = 3, GAP = 4;
// What was read for no hit looks like a comb: every fourth column is half as high.
const COMB = 4;

export function paintStrip(canvas, strip, colours, lines) {
  const pen = penOf(canvas), along = strip.length / SHARES / lines;
  const wide = canvas.clientWidth, high = Math.floor(canvas.clientHeight / lines);
  const cell = (column) => Math.floor((column * along) / wide);
  for (let line = 0; line < lines; line++) {
    for (let x = 0; x < wide; x++) {
      const from = line * along + cell(x), to = Math.max(from + 1, line * along + cell(x + 1));
      column(pen, sharesOf(strip, from, to), colours, x, line * high, high);
    }
  }
}

function sharesOf(strip, from, to) {
  const shares = [0, 0, 0, 0];
  for (let i = SHARES * from; i < SHARES * to; i++) shares[i % SHARES] += strip[i];
  return shares;
}

// A pixel's width of the strip. Each share that is there is seen.
function column(pen, shares, colours, x, top, high) {
  const all = shares.reduce((one, other) => one + other), thin = shares[HOPPED] ? THIN : 0;
  if (!all) return;
  let y = top + high - thin;
  const bar = (name, tall) => {
    pen.fillStyle = colours[name];
    pen.fillRect(x, y, 1, tall);
  };
  if (thin) bar(NAMES[HOPPED], thin);
  for (const state of READS) {
    const share = shares[state] && Math.max(1, Math.round(((high - thin - GAP) * shares[state]) / all));
    const tall = state === READ && x % COMB === 0 ? Math.ceil(share / 2) : share;
    y -= tall;
    if (tall) bar(NAMES[state], tall);
  }
}
