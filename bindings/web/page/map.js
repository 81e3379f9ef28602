// The map: what mouse, fingers and keys do to the view, to the window and to the shape that is picked.
import { textAt } from "./graticule.js";
import { coloursOf, Painter, penOf } from "./paint.js";
import { View } from "./view.js";
import { dragged, grip, moved, ordered, scaled } from "./window.js";

const NEAR = 7, TOUCH_NEAR = 16, STEP = 0.1, ZOOM = 1.5;
// How far a press may move and still be a click, in pixels.
const STILL = 4;
const ARROWS = { ArrowLeft: [-1, 0], ArrowRight: [1, 0], ArrowUp: [0, 1], ArrowDown: [0, -1] };
const FINGER = "touch";
// What of a picture is moved to the painter, and not copied.
const buffersOf = ({ blobs, boxes, from, shape, of, xy }) => [blobs, boxes, from, shape, of, xy].map((one) => one.buffer);

export class LayerMap {
  // `told` has three functions: `window(ends, pixel)` gets each window that is dragged, `pick(blob)` each shape that is clicked, and
  // `at(text)` the coordinates under the pointer. `worker` paints the shapes.
  constructor(canvas, told, worker) {
    Object.assign(this, { canvas, told, worker, view: new View(canvas), boxes: true, drawing: false, moving: false, window: null, chosen: null });
    Object.assign(this, { painter: new Painter(this.view), whole: null, painted: null, asked: 0, pictures: 0, isPainting: false, isOld: false, isStale: false });
    this.pointers = new Map();
    this.wishes = new Map();
    worker.onmessage = ({ data }) => this.answered(data);
    const on = (type, act) => canvas.addEventListener(type, (event) => this.whole && act.call(this, event), { passive: false });
    on("pointerdown", this.press);
    on("pointermove", this.move);
    on("pointerup", this.release);
    on("pointercancel", this.release);
    // A finger leaves after each tap, and the coordinates stay.
    on("pointerleave", (event) => event.pointerType !== FINGER && this.told.at(""));
    on("touchstart", this.touch);
    on("touchmove", this.touch);
    on("wheel", this.wheel);
    on("keydown", this.key);
    new ResizeObserver(() => this.repaint()).observe(canvas);
  }

  // Shows a picture, whose buffers go to the painter. `whole` is how far all vertices of the layer reach.
  show(picture, whole, wrong) {
    this.ask({ ask: "picture", picture, wrong }, buffersOf(picture));
    Object.assign(this, { whole, window: null, chosen: null, before: null, isStale: false });
    this.painted = null;
    this.pictures++;
    this.view.begin(whole);
    this.repaint();
  }

  // The states of the blobs that are drawn, and the hits that a sample lacks.
  recolour(state, more) {
    this.ask({ ask: "more", state, more }, more ? buffersOf(more) : []);
    this.stale(false);
  }

  // Whether the colours are of another window.
  stale(isStale) {
    this.isStale = isStale;
    this.repaint();
  }

  ask(message, moved = []) {
    this.worker.postMessage(message, moved);
  }

  // Asks the painter for a blob or a vertex, and promises its answer.
  wish(message) {
    return new Promise((resolve) => {
      this.wishes.set(++this.asked, resolve);
      this.ask({ ...message, number: this.asked });
    });
  }

  answered({ tell, number, ...told }) {
    if (tell === "painted") return this.took(number === this.pictures ? told : null);
    this.wishes.get(number)(told);
    this.wishes.delete(number);
  }

  // What was painted of an earlier picture is dropped.
  took(painted) {
    this.painted?.bitmap?.close();
    Object.assign(this, { painted, isPainting: false });
    if (this.isOld) this.askShapes();
    this.compose();
  }

  // One painting at a time: while one is made, only the last view is kept.
  askShapes() {
    const { view: { x, y, scale, wide, high }, boxes, isStale } = this;
    this.isOld = this.isPainting;
    if (this.isPainting) return;
    this.isPainting = true;
    this.ask({ ask: "paint", number: this.pictures, view: { x, y, scale, wide, high, ratio: devicePixelRatio || 1 }, boxes, isStale, colours: coloursOf(document) });
  }

  fit() {
    this.view.fit(this.whole);
    this.repaint();
  }

  // Marks a shape by its box and its extent. The view stays, or is moved where it shows nothing of the shape.
  choose(chosen) {
    this.chosen = chosen;
    const whole = chosen.box ?? chosen.extent;
    if (whole && !this.view.sees(whole, 0)) Object.assign(this.view, { x: (whole[0] + whole[2]) / 2, y: (whole[1] + whole[3]) / 2 });
    this.repaint();
  }

  // Looks at the shape alone, and keeps the view from before.
  closer() {
    const { box, extent } = this.chosen;
    if (!box && !extent) return;
    this.before ??= this.view.kept;
    this.view.fit(box ?? extent);
    this.zoom(0.5);
  }

  back() {
    Object.assign(this.view, this.before);
    this.before = null;
    this.repaint();
  }

  // The window that was scanned, and its text.
  setWindow(ends, text) {
    Object.assign(this, { window: ends, text });
    this.repaint();
  }

  get middle() {
    return [this.canvas.clientWidth / 2, this.canvas.clientHeight / 2];
  }

  // Paints all anew: the shapes when the painter has them, and what is over them in the next frame, so that it follows the pointer.
  repaint() {
    if (!this.whole) return;
    this.isOld = true;
    this.compose();
  }

  compose() {
    // What tests wait for, too.
    this.canvas.dataset.painted = "no";
    this.waiting ??= requestAnimationFrame(() => {
      this.waiting = null;
      this.view.measure();
      if (this.isOld) this.askShapes();
      const lines = this.painter.paint(penOf(this.canvas), { ...this, picked: this.chosen, colours: coloursOf(document) });
      this.tell(lines);
      this.canvas.dataset.painted = this.isPainting ? "no" : "yes";
    });
  }

  // What is seen, for people who don't see the map. For tests also where the window is on the canvas (left, top, right, bottom), and
  // where numbers are.
  tell(lines) {
    const { view, window, text, chosen, isStale } = this, [x0, y0, x1, y1] = view.seen, pixel = 1 / view.scale;
    const [west, south, east, north] = [x0, y0, x1, y1].map((end) => textAt(end, 10 * pixel));
    this.canvas.ariaLabel = `Map of the layer, X from ${west} to ${east}, Y from ${south} to ${north}`;
    const corners = window && [view.px(window[0]), view.py(window[3]), view.px(window[1]), view.py(window[2])];
    const graticule = [lines.x.map(({ at, text }) => [view.px(at), text]), lines.y.map(({ at, text }) => [view.py(at), text])];
    this.canvas.dataset.frame = JSON.stringify({ corners, text, graticule, scale: view.scale, picked: chosen?.blob ?? null, isStale });
  }

  drag(ends) {
    this.window = ordered(ends);
    this.repaint();
    this.told.window(this.window, 1 / this.view.scale);
  }

  zoom(by, at = this.middle) {
    const isZoomed = this.view.zoom(by, at);
    this.repaint();
    return isZoomed;
  }

  pan(dx, dy) {
    this.view.pan(dx, dy);
    this.repaint();
  }

  // Whether a press of this pointer moves the map or the window. One finger scrolls the page, unless a button says otherwise.
  moves(event) {
    return event.pointerType !== FINGER || this.drawing || this.moving;
  }

  // Two fingers on the map are the map's, so that the page doesn't scroll.
  touch(event) {
    if (event.touches.length > 1 && event.cancelable) event.preventDefault();
  }

  // Whether a press draws a window, and whether one finger moves the map.
  mode(mode) {
    Object.assign(this, mode);
    this.canvas.style.touchAction = this.drawing || this.moving ? "none" : "";
  }

  press(event) {
    const at = [event.offsetX, event.offsetY];
    this.pointers.set(event.pointerId, at);
    this.pressed = this.pointers.size > 1 ? null : at;
    this.held = null;
    if (!this.moves(event)) return;
    event.preventDefault();
    this.canvas.focus({ preventScroll: true });
    this.canvas.setPointerCapture(event.pointerId);
    if (this.pointers.size > 1) return;
    const place = this.view.place(at), near = (event.pointerType === FINGER ? TOUCH_NEAR : NEAR) / this.view.scale;
    if (this.drawing) this.held = { from: place, window: [place[0], place[0], place[1], place[1]], ends: [false, true, false, true] };
    else {
      const ends = this.window && grip(this.window, place, near);
      this.held = ends && { from: place, window: this.window, ends };
    }
  }

  move(event) {
    const at = [event.offsetX, event.offsetY], last = this.pointers.get(event.pointerId);
    this.told.at(this.textOf(at));
    if (!last) return this.hover(at);
    if (this.pressed && Math.hypot(at[0] - this.pressed[0], at[1] - this.pressed[1]) < STILL) return;
    this.pressed = null;
    this.pointers.set(event.pointerId, at);
    if (this.pointers.size > 1) return this.pinch(event.pointerId, last, at);
    if (!this.moves(event)) return;
    if (!this.held) return this.pan(at[0] - last[0], at[1] - last[1]);
    const place = this.view.place(at), { from, window, ends } = this.held;
    this.drag(dragged(window, ends, place[0] - from[0], place[1] - from[1]));
  }

  textOf(at) {
    const [x, y] = this.view.place(at), pixel = 1 / this.view.scale;
    return `x = ${textAt(x, pixel)}, y = ${textAt(y, pixel)}`;
  }

  hover(at) {
    const ends = this.window && !this.drawing && grip(this.window, this.view.place(at), NEAR / this.view.scale);
    this.canvas.style.cursor = this.drawing ? "crosshair" : ends ? "move" : "grab";
  }

  pinch(moving, last, at) {
    const [, still] = [...this.pointers].find(([id]) => id !== moving);
    const far = (one) => Math.hypot(one[0] - still[0], one[1] - still[1]) || 1;
    const between = [(at[0] + still[0]) / 2, (at[1] + still[1]) / 2];
    this.pan((at[0] - last[0]) / 2, (at[1] - last[1]) / 2);
    this.zoom(far(at) / far(last), between);
  }

  release(event) {
    const isClick = event.type === "pointerup" && this.pressed && this.pointers.has(event.pointerId);
    this.pointers.delete(event.pointerId);
    this.held = null;
    if (isClick && !this.drawing) this.click(event);
    this.pressed = null;
  }

  // A click picks the shape there, a click beside all shapes picks none.
  async click(event) {
    const at = [event.offsetX, event.offsetY], reach = (event.pointerType === FINGER ? TOUCH_NEAR : NEAR) / this.view.scale;
    this.told.at(this.textOf(at));
    this.told.pick((await this.wish({ ask: "near", place: this.view.place(at), reach })).blob);
  }

  // The vertex that is drawn nearest to a place, or null.
  async vertexNear(place) {
    return (await this.wish({ ask: "vertex", place })).vertex;
  }

  // The wheel scrolls the page, unless the map was clicked into or a key is held. Where zooming out ends, it scrolls again.
  wheel(event) {
    if (!event.ctrlKey && !event.metaKey && document.activeElement !== this.canvas) return;
    const isZoomed = this.zoom(ZOOM ** (-event.deltaY / (event.deltaMode ? 3 : 120)), [event.offsetX, event.offsetY]);
    if (isZoomed || event.ctrlKey || event.metaKey) event.preventDefault();
  }

  key(event) {
    if (event.ctrlKey || event.metaKey || event.altKey) return;
    const arrow = ARROWS[event.key], { clientWidth, clientHeight } = this.canvas;
    if (arrow && event.shiftKey && this.window) {
      const [x0, x1, y0, y1] = this.window;
      this.drag(moved(this.window, arrow[0] * STEP * (x1 - x0), arrow[1] * STEP * (y1 - y0)));
    } else if (arrow) this.pan(-arrow[0] * STEP * clientWidth, arrow[1] * STEP * clientHeight);
    else if (event.key === "+" || event.key === "=") this.zoom(ZOOM);
    else if (event.key === "-") this.zoom(1 / ZOOM);
    else if (event.key === "0") this.fit();
    else if ("[]".includes(event.key) && this.window) this.drag(scaled(this.window, event.key === "]" ? 1.2 : 1 / 1.2));
    else return;
    event.preventDefault();
  }
}
