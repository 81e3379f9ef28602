// The lines of round X and Y on the map, their numbers, and coordinates as texts.
const APART = 70, MOST_LINES = 60, MOST_DIGITS = 15, MOST_DECIMALS = 7;

// A round step between lines that are some way apart on the screen, where a pixel is so wide.
export function stepOf(pixel) {
  const least = APART * pixel, power = 10 ** Math.floor(Math.log10(least));
  return [1, 2, 5, 10].map((times) => times * power).find((step) => step >= least);
}

const decimalsOf = (width) => Math.min(MOST_DECIMALS, Math.max(0, -Math.floor(Math.log10(width) + 1e-9)));

// A coordinate with the decimals that a width on the map can show.
export function textAt(coordinate, width) {
  const text = coordinate.toFixed(decimalsOf(width)).replace(/^-(0(?:\.0*)?)$/, "$1");
  return text.length > MOST_DIGITS + MOST_DECIMALS ? coordinate.toExponential(6) : text.replace("-", "\u2212");
}

// The lines between two coordinates: where they are, and their numbers.
export function linesOf(from, to, step) {
  const lines = [];
  for (let i = Math.ceil(from / step); i * step <= to && lines.length < MOST_LINES; i++) lines.push({ at: i * step, text: textAt(i * step, step) });
  return lines;
}
