// Paints what is over and under the shapes of the map, in the colours of the page's style: the graticule, the window, what is selected.
import { linesOf, stepOf } from "./graticule.js";
import { crisp, rectangle, stroke, widen } from "./pen.js";

const MARKS = ["read", "hopped", "hit", "header", "box", "window", "grid", "picked", "paper", "quiet"];
// The ring round a shape that is picked, in pixels.
const LEAST_RING = 12, FONT = "12px system-ui, sans-serif";

export function coloursOf(document) {
  const probe = document.getElementById("probe"), style = getComputedStyle(probe), colours = {};
  for (const name of MARKS) {
    probe.style.color = `var(--${name})`;
    colours[name] = style.color;
  }
  return colours;
}

// Makes a canvas as fine as the screen, and gives its pen.
export function penOf(canvas) {
  const ratio = devicePixelRatio || 1;
  const [width, height] = [Math.round(canvas.clientWidth * ratio), Math.round(canvas.clientHeight * ratio)];
  if (canvas.width !== width || canvas.height !== height) Object.assign(canvas, { width, height });
  const pen = canvas.getContext("2d");
  pen.setTransform(ratio, 0, 0, ratio, 0, 0);
  pen.setLineDash([]);
  pen.clearRect(0, 0, canvas.clientWidth, canvas.clientHeight);
  return pen;
}

export class Painter {
  constructor(view) {
    this.view = view;
  }

  // Puts the shapes between, which were painted for an earlier view or for this one.
  paint(pen, { window, picked, painted, colours }) {
    this.pen = pen;
    const lines = this.graticule(colours);
    if (painted?.bitmap) this.shapes(painted);
    if (window) this.frame(window, colours.window);
    if (picked) this.picked(picked, colours.picked);
    this.numbers(lines, colours);
    return lines;
  }

  shapes({ bitmap, view: { x, y, scale, wide, high } }) {
    const { view, pen } = this, by = view.scale / scale, ratio = devicePixelRatio || 1;
    // Pixel by pixel, where nothing moved.
    if (by === 1 && x === view.x && y === view.y && wide === view.wide && high === view.high) pen.drawImage(bitmap, 0, 0, bitmap.width / ratio, bitmap.height / ratio);
    else pen.drawImage(bitmap, view.px(x - wide / 2 / scale), view.py(y + high / 2 / scale), wide * by, high * by);
  }

  // Dotted lines at round numbers.
  graticule(colours) {
    const { view, pen } = this, [x0, y0, x1, y1] = view.seen, step = stepOf(1 / view.scale);
    const lines = { x: linesOf(x0, x1, step), y: linesOf(y0, y1, step) };
    stroke(pen, colours.grid, 1, [1, 4]);
    pen.beginPath();
    for (const { at } of lines.x) pen.moveTo(crisp(view.px(at)), 0), pen.lineTo(crisp(view.px(at)), view.high);
    for (const { at } of lines.y) pen.moveTo(0, crisp(view.py(at))), pen.lineTo(view.wide, crisp(view.py(at)));
    pen.stroke();
    pen.setLineDash([]);
    return lines;
  }

  // The numbers of the lines, on a ground of their own: of X at the bottom, of Y on the left.
  numbers({ x, y }, { paper, quiet }) {
    const { view, pen } = this;
    Object.assign(pen, { font: FONT, textBaseline: "middle" });
    const put = (text, ...place) => {
      const wide = Math.ceil(pen.measureText(text).width), [left, middle] = place.map(Math.round);
      if (left < 0 || left + wide > view.wide || middle < 9 || middle > view.high - 5) return;
      pen.fillStyle = paper;
      pen.fillRect(left - 2, middle - 8, wide + 4, 16);
      pen.fillStyle = quiet;
      pen.fillText(text, left, middle);
    };
    for (const { at, text } of y) if (view.py(at) < view.high - 26) put(text, 3, view.py(at));
    for (const { at, text } of x) put(text, view.px(at) - pen.measureText(text).width / 2, view.high - 10);
  }

  // A shape that is picked: its box and its extent, and a ring where both are small.
  picked({ box, extent }, colour) {
    const { view, pen } = this, whole = box ?? extent;
    if (!whole) return;
    stroke(pen, colour, 2);
    rectangle(pen, view, whole);
    if (box && extent) {
      stroke(pen, colour, 1, [4, 3]);
      rectangle(pen, view, extent);
    }
    const [wide, high] = [whole[2] - whole[0], whole[3] - whole[1]].map((side) => side * view.scale);
    stroke(pen, colour, 2);
    if (Math.max(wide, high) > 2 * LEAST_RING) return;
    pen.beginPath();
    pen.arc(view.px((whole[0] + whole[2]) / 2), view.py((whole[1] + whole[3]) / 2), LEAST_RING, 0, 7);
    pen.stroke();
  }

  frame([x0, x1, y0, y1], colour) {
    stroke(this.pen, colour, 2);
    rectangle(this.pen, this.view, [x0, y0, x1, y1]);
    for (const x of [x0, x1]) for (const y of [y0, y1]) this.pen.fillRect(Math.round(this.view.px(x)) - 4, Math.round(this.view.py(y)) - 4, 8, 8);
  }
}

// A false box, its vertices, and the one that is outside.
export function paintOutside(canvas, { xy, box, vertex }, view, colours) {
  const pen = penOf(canvas), whole = [Math.min(box[0], box[2]), Math.min(box[1], box[3]), Math.max(box[0], box[2]), Math.max(box[1], box[3])];
  for (let i = 0; i < xy.length; i += 2) widen(whole, [xy[i], xy[i + 1], xy[i], xy[i + 1]]);
  view.fit(whole);
  const at = (i) => [view.px(xy[2 * i]), view.py(xy[2 * i + 1])];
  Object.assign(pen, { strokeStyle: colours.hopped, fillStyle: colours.hopped, lineWidth: 1.5 });
  pen.beginPath();
  for (let i = 0; i < xy.length >> 1; i++) pen.lineTo(...at(i));
  pen.stroke();
  for (let i = 0; i < xy.length >> 1; i++) pen.fillRect(at(i)[0] - 2, at(i)[1] - 2, 4, 4);
  Object.assign(pen, { strokeStyle: colours.box, lineWidth: 2 });
  pen.setLineDash([6, 3]);
  const [left, top] = [crisp(view.px(box[0])), crisp(view.py(box[3]))];
  pen.strokeRect(left, top, crisp(view.px(box[2])) - left, crisp(view.py(box[1])) - top);
  pen.fillStyle = colours.window;
  pen.beginPath();
  pen.arc(...at(vertex), 6, 0, 7);
  pen.fill();
}
