// The taken states as a picture: each cell in the colour of the first state of it, up to a number that can be
// moved.

import { Bitmap, ramp } from "./bitmap.js";
import { palette, stateRamp } from "./palette.js";

/** The least rectangle that holds all states. */
function bounds(states) {
  let left = 65535, top = 65535, right = 0, bottom = 0;
  for (let at = 0; at < states.count; at += 1) {
    const x = states.x[at], y = states.y[at];
    if (x < left) left = x;
    if (x > right) right = x;
    if (y < top) top = y;
    if (y > bottom) bottom = y;
  }
  return { left, top, width: right - left + 1, height: bottom - top + 1 };
}

/** A picture of the first `shown` states of a search. */
export class StatesPicture {
  constructor(states, colours) {
    const { left, top, width, height } = bounds(states);
    this.states = states;
    this.shown = 0;
    this.colours = ramp(colours);
    this.bitmap = new Bitmap(width, height, left, top, true);
    this.places = new Uint32Array(states.count);
    this.isFirst = new Uint8Array(states.count);
    this.isJumps = states.arrival.some((it) => it < 8);
    const seen = new Uint8Array(width * height);
    for (let at = 0; at < states.count; at += 1) {
      const place = (states.y[at] - top) * width + states.x[at] - left;
      this.places[at] = place;
      this.isFirst[at] = seen[place] ? 0 : 1;
      seen[place] = 1;
    }
  }

  /** The colour of a state, by its place in the order. */
  colourOf(at) {
    const pixel = this.pixelOf(at);
    return `rgb(${pixel & 255} ${(pixel >> 8) & 255} ${(pixel >> 16) & 255})`;
  }

  pixelOf(at) {
    return this.colours[Math.round((255 * at) / Math.max(1, this.states.count - 1))];
  }

  /** Shows so many states; only the cells that change are painted. */
  show(count) {
    const to = Math.max(0, Math.min(count, this.states.count));
    if (to === this.shown) return;
    const { pixels, width } = this.bitmap;
    const [low, high] = to > this.shown ? [this.shown, to] : [to, this.shown];
    let left = width, right = 0, top = this.bitmap.height, bottom = 0;
    for (let at = low; at < high; at += 1) {
      if (!this.isFirst[at]) continue;
      const place = this.places[at];
      pixels[place] = to > this.shown ? this.pixelOf(at) : 0;
      const x = place % width, y = (place - x) / width;
      if (x < left) left = x;
      if (x > right) right = x;
      if (y < top) top = y;
      if (y > bottom) bottom = y;
    }
    this.shown = to;
    if (right >= left) this.bitmap.update(left, top, right - left + 1, bottom - top + 1);
  }
}

export const statesPicture = (states, theme) => new StatesPicture(states, stateRamp(theme));

/** The cells that were looked at, each in one colour; shown are those of so many states. */
export class LookedPicture {
  constructor({ x, y, ends }, theme) {
    const states = { count: x.length, x, y, arrival: [] };
    this.ends = ends;
    this.picture = new StatesPicture(states, [palette(theme).looked, palette(theme).looked]);
    this.bitmap = this.picture.bitmap;
  }

  show(count) {
    this.picture.show(count > 0 ? this.ends[Math.min(count, this.ends.length) - 1] : 0);
  }
}

/** A picture of values at cells, as of a certificate; `high` is the greatest one. */
export function heatPicture(cells, high, colours) {
  const states = { count: cells.x.length, x: cells.x, y: cells.y };
  const { left, top, width, height } = bounds(states);
  const bitmap = new Bitmap(width, height, left, top);
  const pixels = ramp(colours);
  for (let at = 0; at < states.count; at += 1) {
    const value = cells.value.length ? cells.value[at] / (high || 1) : 0.6;
    const place = (cells.y[at] - top) * width + cells.x[at] - left;
    bitmap.pixels[place] = pixels[Math.max(0, Math.min(255, Math.round(255 * value)))];
  }
  bitmap.update();
  return bitmap;
}
