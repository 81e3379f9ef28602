// Which blob of the picture lies at a place on the map.
import { POINTS, RING } from "./format.js";

// The blob with a line or a point nearest to the place, no further than the reach; -1 where there is none.
export function nearest({ xy, from, shape, of }, extents, [x, y], reach) {
  let found = -1, least = reach;
  for (let part = 0; part < shape.length; part++) {
    const at = 4 * part;
    if (x < extents[at] - least || x > extents[at + 2] + least || y < extents[at + 1] - least || y > extents[at + 3] + least) continue;
    const far = distance(xy, from[part], from[part + 1], shape[part], x, y);
    if (far <= least) [found, least] = [of[part], far];
  }
  return found;
}

function distance(xy, start, end, shape, x, y) {
  let least = Infinity;
  for (let i = start; i < end; i++) {
    const isLast = i + 1 === end, next = isLast && shape === RING ? start : i + 1;
    const there = shape === POINTS || (isLast && shape !== RING) ? i : next;
    least = Math.min(least, toSegment(x - xy[2 * i], y - xy[2 * i + 1], xy[2 * there] - xy[2 * i], xy[2 * there + 1] - xy[2 * i + 1]));
  }
  return least;
}

// How far a place is from the segment from the origin to another one.
function toSegment(x, y, dx, dy) {
  const length = dx * dx + dy * dy, along = length ? Math.min(1, Math.max(0, (x * dx + y * dy) / length)) : 0;
  return Math.hypot(x - along * dx, y - along * dy);
}

// The drawn vertex nearest to a place, or null.
export function vertexNear({ xy }, [x, y]) {
  let found = null, least = Infinity;
  for (let i = 0; i < xy.length; i += 2) {
    const far = Math.hypot(xy[i] - x, xy[i + 1] - y);
    if (far < least) [found, least] = [[xy[i], xy[i + 1]], far];
  }
  return found;
}
