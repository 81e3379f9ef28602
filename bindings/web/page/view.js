// What of the layer is seen on a canvas.
const MARGIN = 24;
// A view is never narrower than this share of its middle's distance from 0: doubles end there.
const FINEST = 1e-12;

// How much of the canvas the layer takes at least.
const SMALLEST = 0.8;

export class View {
  constructor(canvas, { x, y, scale } = { x: 0, y: 0, scale: 1 }) {
    Object.assign(this, { canvas, x, y, scale, least: 0 });
    this.measure();
  }

  // Asking the browser for each vertex would take long.
  measure() {
    [this.wide, this.high] = [this.canvas.clientWidth, this.canvas.clientHeight];
  }

  px(x) {
    return (x - this.x) * this.scale + this.wide / 2;
  }

  py(y) {
    return (this.y - y) * this.scale + this.high / 2;
  }

  place([px, py]) {
    return [(px - this.wide / 2) / this.scale + this.x, this.y - (py - this.high / 2) / this.scale];
  }

  // Lowest X and Y, then highest.
  get seen() {
    const [[x0, y1], [x1, y0]] = [this.place([0, 0]), this.place([this.wide, this.high])];
    return [x0, y0, x1, y1];
  }

  // Whether some of this extent, which begins at a place of the list, is on the canvas.
  sees(list, at) {
    return this.px(list[at + 2]) >= -1 && this.px(list[at]) <= this.wide + 1 && this.py(list[at + 1]) >= -1 && this.py(list[at + 3]) <= this.high + 1;
  }

  fit([x0, y0, x1, y1]) {
    this.measure();
    const [w, h] = [x1 - x0, y1 - y0].map((side) => side || Math.max(x1 - x0, y1 - y0) / 10 || 1);
    Object.assign(this, { x: (x0 + x1) / 2, y: (y0 + y1) / 2 });
    this.scale = Math.min(Math.max(50, this.wide - 2 * MARGIN) / w, Math.max(50, this.high - 2 * MARGIN) / h);
    this.limit();
  }

  // Fits the layer, at which zooming out ends.
  begin(extent) {
    this.least = 0;
    this.fit(extent);
    this.least = SMALLEST * this.scale;
  }

  limit() {
    this.scale = Math.max(this.scale, this.least);
    this.scale = Math.min(this.scale, 1 / (FINEST * Math.max(1e-3, Math.abs(this.x), Math.abs(this.y))));
  }

  // Whether it was zoomed: at the layer zooming out ends.
  zoom(by, at) {
    const [x, y] = this.place(at), before = this.scale;
    this.scale *= by;
    this.limit();
    const [nowX, nowY] = this.place(at);
    this.x += x - nowX;
    this.y += y - nowY;
    return this.scale !== before;
  }

  pan(dx, dy) {
    this.x -= dx / this.scale;
    this.y += dy / this.scale;
  }

  get kept() {
    return { x: this.x, y: this.y, scale: this.scale };
  }
}
