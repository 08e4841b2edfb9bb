// Pictures with one pixel for each cell, and smaller copies of them, so that a whole large map is drawn at
// once.

import { palette } from "./palette.js";

const GROUND = { ".": "land", G: "land", S: "swamp", T: "trees", "@": "wall", O: "wall", W: "water" };

export const groundName = (byte) => GROUND[String.fromCharCode(byte)];

const toPixel = (colour) => {
  const number = parseInt(colour.slice(1), 16);
  return (0xff000000 | ((number & 255) << 16) | (number & 0xff00) | (number >> 16)) >>> 0;
};

/** The pixel of each byte of a map in a theme. */
export function groundPixels(theme) {
  const pixels = new Uint32Array(256);
  for (const [byte, name] of Object.entries(GROUND)) pixels[byte.charCodeAt(0)] = toPixel(palette(theme)[name]);
  return pixels;
}

/** Colours between the given ones, as pixels. */
export function ramp(colours, count = 256) {
  const parts = colours.map((it) => [1, 3, 5].map((at) => parseInt(it.slice(at, at + 2), 16)));
  return Uint32Array.from({ length: count }, (_, index) => {
    const place = (index / (count - 1)) * (parts.length - 1);
    const low = Math.min(Math.floor(place), parts.length - 2);
    const [red, green, blue] = parts[low].map((it, at) => Math.round(it + (parts[low + 1][at] - it) * (place - low)));
    return (0xff000000 | (blue << 16) | (green << 8) | red) >>> 0;
  });
}

/**
 * A picture of a rectangle of the map, from its column `left` and its row `top` on. A smaller copy has the mean of four
 * pixels; where it `covers`, one of them that is painted is enough: single cells are then seen however small they are.
 */
export class Bitmap {
  constructor(width, height, left = 0, top = 0, covers = false) {
    Object.assign(this, { width, height, left, top, covers });
    this.image = new ImageData(width, height);
    this.pixels = new Uint32Array(this.image.data.buffer);
    this.levels = [];
    for (let w = width, h = height; ; w = Math.ceil(w / 2), h = Math.ceil(h / 2)) {
      const canvas = document.createElement("canvas");
      canvas.width = w;
      canvas.height = h;
      this.levels.push(canvas.getContext("2d"));
      if (Math.max(w, h) <= 512) break;
    }
  }

  /** Takes over what was written to `pixels` in this rectangle, and makes the smaller copies of it. */
  update(x = 0, y = 0, w = this.width, h = this.height) {
    this.levels[0].putImageData(this.image, 0, 0, x, y, w, h);
    for (let level = 1; level < this.levels.length; level += 1) {
      const from = this.levels[level - 1].canvas, to = this.levels[level];
      const left = Math.floor(x / 2), top = Math.floor(y / 2);
      const right = Math.min(Math.ceil((x + w) / 2), to.canvas.width);
      const bottom = Math.min(Math.ceil((y + h) / 2), to.canvas.height);
      [x, y, w, h] = [left, top, right - left, bottom - top];
      to.clearRect(x, y, w, h);
      to.imageSmoothingEnabled = !this.covers;
      // Without smoothing a pixel is taken from one of the four, and each of them in turn from a place moved
      // by one.
      for (const [dx, dy] of this.covers ? [[-1, -1], [0, -1], [-1, 0], [0, 0]] : [[0, 0]]) {
        to.drawImage(from, 2 * x + dx, 2 * y + dy, 2 * w, 2 * h, x, y, w, h);
      }
    }
  }

  /** Draws itself where a cell has `scale` pixels and cell (0, 0) begins at (x, y). */
  draw(context, x, y, scale, alpha = 1) {
    let level = 0;
    while (level + 1 < this.levels.length && scale * 2 ** (level + 1) <= 1) level += 1;
    const { canvas } = this.levels[level];
    const side = scale * 2 ** level;
    const area = context.canvas;
    // Only the part that is seen is drawn, in whole pixels of the picture.
    const left = Math.max(0, Math.floor(-(x + this.left * scale) / side));
    const top = Math.max(0, Math.floor(-(y + this.top * scale) / side));
    const right = Math.min(canvas.width, Math.ceil((area.width - x - this.left * scale) / side));
    const bottom = Math.min(canvas.height, Math.ceil((area.height - y - this.top * scale) / side));
    if (right <= left || bottom <= top) return;
    context.globalAlpha = alpha;
    context.imageSmoothingEnabled = side < 2; // else walls of one cell would be of two widths
    context.imageSmoothingQuality = "medium";
    context.drawImage(canvas, left, top, right - left, bottom - top, x + this.left * scale + left * side,
      y + this.top * scale + top * side, (right - left) * side, (bottom - top) * side);
    context.globalAlpha = 1;
  }
}

/** The bitmap of a map. */
export function mapBitmap(map, theme) {
  const bitmap = new Bitmap(map.width, map.height);
  paintMap(bitmap, map, theme);
  return bitmap;
}

/** Paints the whole map anew, as when the theme is another. */
export function paintMap(bitmap, map, theme) {
  const colours = groundPixels(theme);
  const { pixels } = bitmap, { cells } = map;
  for (let at = 0; at < cells.length; at += 1) pixels[at] = colours[cells[at]];
  bitmap.update();
}
