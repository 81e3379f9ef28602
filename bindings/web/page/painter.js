// The painter: a worker of its own that paints the shapes of the map, so that a pointer never waits for them, and finds the shape at a place.
import { nearest, vertexNear } from "./pick.js";
import { paintShapes, Shapes } from "./shapes.js";
import { HIT } from "./states.js";
import { View } from "./view.js";

let pictures = [], wrong = null, canvas = null;

const ANSWERS = {
  picture({ picture, wrong: shape }) {
    pictures = [new Shapes(picture)];
    wrong = shape;
  },
  // The hits that a sample lacks.
  more({ state, more }) {
    pictures.length = 1;
    pictures[0].state = state;
    if (more) pictures.push(new Shapes(more, new Uint8Array(more.blobs.length).fill(HIT)));
  },
  paint({ number, view, ...how }) {
    canvas ??= new OffscreenCanvas(1, 1);
    const wide = Math.round(view.wide * view.ratio), high = Math.round(view.high * view.ratio);
    if (!wide || !high) return postMessage({ tell: "painted", number, view, bitmap: null });
    Object.assign(canvas, { width: wide, height: high });
    const pen = canvas.getContext("2d");
    pen.setTransform(view.ratio, 0, 0, view.ratio, 0, 0);
    paintShapes(pen, new View({ clientWidth: view.wide, clientHeight: view.high }, view), pictures, wrong, how);
    const bitmap = canvas.transferToImageBitmap();
    postMessage({ tell: "painted", number, view, bitmap }, [bitmap]);
  },
  // The blob with the nearest shape, or null.
  near({ number, place, reach }) {
    let blob = null;
    for (const { picture, extents } of pictures) {
      const found = nearest(picture, extents, place, reach);
      if (found >= 0) blob = picture.blobs[found];
    }
    postMessage({ tell: "near", number, blob });
  },
  vertex({ number, place }) {
    postMessage({ tell: "vertex", number, vertex: vertexNear(pictures[0].picture, place) });
  },
};

onmessage = ({ data }) => ANSWERS[data.ask](data);
