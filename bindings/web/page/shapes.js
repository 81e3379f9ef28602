// Paints the shapes of a layer, in the painter. Widths and dashes tell their states apart too.
import { POINTS, RING } from "./format.js";
import { rectangle, stroke } from "./pen.js";
import { HIT, HOPPED, NAMES, READ } from "./states.js";

// How each state is drawn.
const STYLES = {
  [READ]: { wide: 1.6, dash: [6, 3], point: 5 },
  [HOPPED]: { wide: 1.4, dash: [], point: 3 },
  [HIT]: { wide: 2.6, dash: [], point: 7 },
};
// How many vertices are stroked at once, and how far apart they have to be to be seen, in pixels.
const BATCH = 2000, APART = 0.6;
// How wide a box has to be to be drawn, in pixels: a smaller one would hide what is in it.
const LEAST_BOX = 6;
// How strong colours are that are of another window.
const DIMMED = 0.35;

// A picture with the extent of each part, as lowest X and Y, then highest, and with the state of each blob.
export class Shapes {
  constructor(picture, state = new Uint8Array(picture.blobs.length).fill(HOPPED)) {
    Object.assign(this, { picture, state, extents: extentsOf(picture) });
  }
}

function extentsOf({ xy, from, shape }) {
  const extents = new Float64Array(4 * shape.length);
  for (let part = 0; part < shape.length; part++) {
    const extent = [Infinity, Infinity, -Infinity, -Infinity];
    for (let i = 2 * from[part]; i < 2 * from[part + 1]; i++) {
      extent[i & 1] = Math.min(extent[i & 1], xy[i]);
      extent[2 + (i & 1)] = Math.max(extent[2 + (i & 1)], xy[i]);
    }
    extents.set(extent, 4 * part);
  }
  return extents;
}

export function paintShapes(pen, view, pictures, wrong, { boxes, isStale, colours }) {
  pen.globalAlpha = isStale ? DIMMED : 1;
  if (boxes) for (const shapes of pictures) new Painting(pen, view, shapes).boxes(colours.box);
  for (const state of [HOPPED, READ, HIT]) for (const shapes of pictures) new Painting(pen, view, shapes).parts(state, colours);
  if (wrong) paintWrong(pen, view, wrong, colours.window);
}

// The blob that is refused: its vertices in their order.
function paintWrong(pen, view, xy, colour) {
  stroke(pen, colour, 2.6);
  pen.beginPath();
  for (let i = 0; i < xy.length; i += 2) pen.lineTo(view.px(xy[i]), view.py(xy[i + 1]));
  pen.stroke();
  for (let i = 0; i < xy.length; i += 2) pen.fillRect(view.px(xy[i]) - 3, view.py(xy[i + 1]) - 3, 6, 6);
}

class Painting {
  constructor(pen, view, shapes) {
    Object.assign(this, { pen, view, ...shapes });
  }

  boxes(colour) {
    const { boxes } = this.picture;
    stroke(this.pen, colour, 1, [2, 2]);
    for (let i = 0; i < boxes.length; i += 4) {
      const wide = Math.max(boxes[i + 2] - boxes[i], boxes[i + 3] - boxes[i + 1]) * this.view.scale;
      if (wide >= LEAST_BOX && this.view.sees(boxes, i)) rectangle(this.pen, this.view, boxes.subarray(i, i + 4));
    }
  }

  parts(state, colours) {
    const { wide, dash, point } = STYLES[state];
    const { of, shape, from } = this.picture, { pen } = this;
    stroke(pen, colours[NAMES[state]], wide, dash);
    let vertices = 0;
    pen.beginPath();
    for (let part = 0; part < shape.length; part++) {
      if (this.state[of[part]] !== state || !this.view.sees(this.extents, 4 * part)) continue;
      if (shape[part] === POINTS) this.points(part, point, state === READ);
      else this.line(part, shape[part] === RING);
      vertices += from[part + 1] - from[part];
      if (vertices < BATCH) continue;
      pen.stroke();
      pen.beginPath();
      vertices = 0;
    }
    pen.stroke();
  }

  // Points are squares: large ones are hits, hollow ones were read.
  points(part, wide, isHollow) {
    const { xy, from } = this.picture, { view, pen } = this;
    pen.setLineDash([]);
    for (let i = from[part]; i < from[part + 1]; i++) {
      const [left, top] = [Math.round(view.px(xy[2 * i]) - wide / 2), Math.round(view.py(xy[2 * i + 1]) - wide / 2)];
      if (isHollow) pen.strokeRect(left + 0.5, top + 0.5, wide - 1, wide - 1);
      else pen.fillRect(left, top, wide, wide);
    }
  }

  line(part, closed) {
    const { xy, from } = this.picture, { view, pen } = this, end = from[part + 1];
    let lastX = view.px(xy[2 * from[part]]), lastY = view.py(xy[2 * from[part] + 1]);
    pen.moveTo(lastX, lastY);
    for (let i = from[part] + 1; i < end; i++) {
      const x = view.px(xy[2 * i]), y = view.py(xy[2 * i + 1]);
      if (i < end - 1 && Math.abs(x - lastX) < APART && Math.abs(y - lastY) < APART) continue;
      pen.lineTo(x, y);
      [lastX, lastY] = [x, y];
    }
    // What is smaller than a pixel is still seen.
    if (end - from[part] === 1 || (lastX === view.px(xy[2 * from[part]]) && lastY === view.py(xy[2 * from[part] + 1]))) pen.lineTo(lastX + 1, lastY);
    if (closed) pen.closePath();
  }
}
