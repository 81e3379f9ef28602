// What paints on canvases, here and in the painter.
export function stroke(pen, colour, wide, dash = []) {
  Object.assign(pen, { strokeStyle: colour, fillStyle: colour, lineWidth: wide });
  pen.setLineDash(dash);
}

// To the middle of a pixel, so that straight lines have their own colour and aren't blurred.
export const crisp = (at) => Math.round(at - 0.5) + 0.5;

export function rectangle(pen, view, [x0, y0, x1, y1]) {
  const [left, top] = [crisp(view.px(x0)), crisp(view.py(y1))];
  pen.strokeRect(left, top, Math.max(1, crisp(view.px(x1)) - left), Math.max(1, crisp(view.py(y0)) - top));
}

export function widen(whole, [x0, y0, x1, y1]) {
  whole[0] = Math.min(whole[0], x0);
  whole[1] = Math.min(whole[1], y0);
  whole[2] = Math.max(whole[2], x1);
  whole[3] = Math.max(whole[3], y1);
}
