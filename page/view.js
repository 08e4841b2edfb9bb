// One drawn map: the grounds, the taken states or a heat map, walks, ends. Several views share one camera.

import { DIRECTIONS } from "./lines.js";
import { palette, stateRamp } from "./palette.js";

const MOST_MARKS = 4000;
const MOST_DOTS = 1500;
const FEW_DOTS = 200;
const FEW_MARKS = 60;
const ARROW = [[0, -1], [1, -1], [1, 0], [1, 1], [0, 1], [-1, 1], [-1, 0], [-1, -1]];

/** Which part of the map is seen: the cell in the middle, and how many pixels a cell has. */
export class Camera {
  constructor() {
    Object.assign(this, { x: 0, y: 0, scale: 1 });
  }

  fit(map, width, height) {
    this.x = map.width / 2;
    this.y = map.height / 2;
    // A map that is long and thin is shown in part, as its whole would be a line too thin to be seen.
    const least = Math.min(8, 12 / Math.min(map.width, map.height));
    this.scale = Math.max(least, Math.min(width / map.width, height / map.height, 48) * 0.96);
  }

  clamp(map) {
    this.x = Math.max(0, Math.min(map.width, this.x));
    this.y = Math.max(0, Math.min(map.height, this.y));
  }

  /** Zooms so that the cell at (px, py), from the middle of the view, stays where it is. */
  zoom(factor, px, py, least) {
    const to = Math.max(least, Math.min(96, this.scale * factor));
    this.x += px / this.scale - px / to;
    this.y += py / this.scale - py / to;
    this.scale = to;
  }
}

export class View {
  constructor(canvas, camera) {
    this.canvas = canvas;
    this.camera = camera;
    this.context = canvas.getContext("2d");
    this.content = {};
    this.asked = false;
    new ResizeObserver(() => this.resize()).observe(canvas);
    this.resize();
  }

  resize() {
    const box = this.canvas.getBoundingClientRect();
    this.ratio = window.devicePixelRatio || 1;
    this.width = box.width;
    this.height = box.height;
    this.canvas.width = Math.max(1, Math.round(box.width * this.ratio));
    this.canvas.height = Math.max(1, Math.round(box.height * this.ratio));
    this.onResize?.();
    this.draw();
  }

  /** The place of a point of the map, in pixels of the page within the canvas. */
  place(x, y) {
    const { camera } = this;
    return [(x - camera.x) * camera.scale + this.width / 2, (y - camera.y) * camera.scale + this.height / 2];
  }

  /** The point of the map below a pixel of the page within the canvas. */
  point(px, py) {
    const { camera } = this;
    return [(px - this.width / 2) / camera.scale + camera.x, (py - this.height / 2) / camera.scale + camera.y];
  }

  /** Draws with the next frame. */
  ask() {
    if (this.asked) return;
    this.asked = true;
    requestAnimationFrame(() => {
      this.asked = false;
      this.draw();
    });
  }

  draw() {
    const { context, content } = this;
    if (!content.bitmap) return;
    const colours = palette(content.theme);
    context.setTransform(1, 0, 0, 1, 0, 0);
    context.fillStyle = colours.beyond;
    context.fillRect(0, 0, this.canvas.width, this.canvas.height);
    const scale = this.camera.scale * this.ratio;
    const [x, y] = this.place(0, 0).map((it) => Math.round(it * this.ratio));
    content.bitmap.draw(context, x, y, scale);
    if (content.heat) content.heat.draw(context, x, y, scale, 0.88);
    if (content.picture && content.looked) content.looked.bitmap.draw(context, x, y, scale, 0.75);
    if (content.picture) content.picture.bitmap.draw(context, x, y, scale, 0.92);
    context.setTransform(this.ratio, 0, 0, this.ratio, 0, 0);
    this.drawGrid(colours);
    if (content.picture && content.rays) this.drawRays(content.rays, content.picture.shown, colours);
    // A few states lie above the walk, whose turns they are; many would hide it.
    const isAbove = content.picture?.states.count <= FEW_MARKS;
    if (content.picture && !isAbove) this.drawMarks(content.picture, colours);
    if (content.walk) this.drawWalk(content.walk, colours.walk, colours.casing);
    if (content.picture && isAbove) this.drawMarks(content.picture, colours);
    if (content.walk && content.isNear) this.drawNearest(content.walk.at(-1), colours);
    // Between the dashes of a told walk a least one is seen, where both lead the same way.
    if (content.told) this.drawWalk(content.told, colours.told, colours.casing, [8, 9]);
    if (content.bad) this.drawBad(content.bad, colours);
    for (const name of ["start", "goal"]) if (content[name]) this.drawEnd(name, colours[name]);
    if (content.cursor) this.drawCursor(content.cursor, colours);
  }

  drawGrid(colours) {
    const { context, camera, content } = this;
    if (camera.scale < 11) return;
    const [left, top] = this.place(0, 0), [right, bottom] = this.place(content.map.width, content.map.height);
    context.beginPath();
    for (let x = Math.max(0, Math.floor(this.point(0, 0)[0])); x <= content.map.width; x += 1) {
      const at = Math.round(this.place(x, 0)[0]) + 0.5;
      if (at > this.width) break;
      context.moveTo(at, Math.max(0, top));
      context.lineTo(at, Math.min(this.height, bottom));
    }
    for (let y = Math.max(0, Math.floor(this.point(0, 0)[1])); y <= content.map.height; y += 1) {
      const at = Math.round(this.place(0, y)[1]) + 0.5;
      if (at > this.height) break;
      context.moveTo(Math.max(0, left), at);
      context.lineTo(Math.min(this.width, right), at);
    }
    context.strokeStyle = colours.grid;
    context.lineWidth = 1;
    context.stroke();
  }

  /** Few states are marked as dots, which are seen however small a cell is; with their arrivals where there is room. */
  drawMarks(picture, colours) {
    const { context, camera } = this;
    const { states, shown } = picture;
    const areDots = camera.scale < (picture.isJumps ? 13 : 5);
    if (states.count > (areDots ? MOST_DOTS : MOST_MARKS)) return;
    const side = Math.min(camera.scale * 0.36, 15);
    const radius = states.count <= FEW_DOTS ? 2.7 : Math.max(1.5, Math.min(2.7, camera.scale * 0.5));
    context.fillStyle = context.strokeStyle = colours.mark;
    context.lineWidth = Math.max(areDots ? 0.8 : 1, camera.scale / 14);
    for (let at = 0; at < shown; at += 1) {
      const [x, y] = this.place(states.x[at] + 0.5, states.y[at] + 0.5);
      if (x < -20 || y < -20 || x > this.width + 20 || y > this.height + 20) continue;
      if (areDots) {
        context.fillStyle = picture.colourOf(at);
        this.drawDot(x, y, radius);
        context.stroke();
      } else if (states.arrival[at] < DIRECTIONS.length) {
        this.drawArrow(x, y, ARROW[states.arrival[at]], side, colours);
      }
    }
  }

  /** A ray for each jump to a taken state, from its parent. */
  drawRays(nodes, shown, colours) {
    const { context, camera } = this;
    if (nodes.length > MOST_MARKS) return;
    context.beginPath();
    for (const { at, cell, parent } of nodes) {
      if (!parent || at >= shown) continue;
      context.moveTo(...this.place(parent.cell.x + 0.5, parent.cell.y + 0.5));
      context.lineTo(...this.place(cell.x + 0.5, cell.y + 0.5));
    }
    context.strokeStyle = colours.ray;
    context.lineWidth = Math.max(1.2, Math.min(camera.scale * 0.1, 2.5));
    context.stroke();
  }

  drawDot(x, y, radius) {
    this.context.beginPath();
    this.context.arc(x, y, radius, 0, 7);
    this.context.fill();
  }

  /** An arrow with a casing, as early and late states differ too much for one colour. */
  drawArrow(x, y, [dx, dy], side, colours) {
    const { context } = this;
    const width = context.lineWidth;
    const length = Math.hypot(dx, dy);
    const [ux, uy] = [(dx / length) * side, (dy / length) * side];
    context.beginPath();
    context.moveTo(x - ux, y - uy);
    context.lineTo(x + ux, y + uy);
    context.moveTo(x + ux * 0.2 - uy * 0.6, y + uy * 0.2 + ux * 0.6);
    context.lineTo(x + ux, y + uy);
    context.lineTo(x + ux * 0.2 + uy * 0.6, y + uy * 0.2 - ux * 0.6);
    for (const [colour, wide] of [[colours.casing, width + 2], [colours.mark, width]]) {
      context.strokeStyle = colour;
      context.lineWidth = wide;
      context.stroke();
    }
  }

  drawWalk(points, colour, edge, dash = []) {
    const { context, camera } = this;
    const width = Math.max(2.5, Math.min(camera.scale * 0.28, 9));
    context.lineJoin = context.lineCap = "round";
    context.beginPath();
    for (const point of points) context.lineTo(...this.place(point.x + 0.5, point.y + 0.5));
    context.setLineDash(dash);
    context.strokeStyle = edge;
    context.lineWidth = width + 3;
    context.stroke();
    context.strokeStyle = colour;
    context.lineWidth = width;
    context.stroke();
    context.setLineDash([]);
    if (camera.scale < 6) return;
    for (const point of points) {
      context.fillStyle = edge;
      this.drawDot(...this.place(point.x + 0.5, point.y + 0.5), Math.max(1.6, width * 0.36));
    }
  }

  /** Start and goal differ by colour, letter and form: a disk and a square on its tip. */
  drawEnd(name, colour) {
    const { context } = this;
    const letter = name === "start" ? "S" : "G";
    const [x, y] = this.endPlace(name);
    const radius = this.endRadius();
    context.beginPath();
    if (letter === "S") context.arc(x, y, radius, 0, 7);
    else for (const [dx, dy] of [[0, -1.28], [1.28, 0], [0, 1.28], [-1.28, 0]]) context.lineTo(x + dx * radius, y + dy * radius);
    context.closePath();
    context.lineWidth = 4;
    context.lineJoin = "round";
    context.strokeStyle = "#fff";
    context.stroke();
    context.fillStyle = colour;
    context.fill();
    if (radius < 6) return;
    context.fillStyle = "#fff";
    context.font = `700 ${Math.round(radius * 1.15)}px system-ui, sans-serif`;
    context.textAlign = "center";
    context.textBaseline = "middle";
    context.fillText(letter, x, y + radius * 0.06);
  }

  /** Where an end is drawn: in the middle of its cell, or beside the other one where both are one cell. */
  endPlace(name) {
    const { start, goal } = this.content, cell = this.content[name];
    const isOne = start && goal && start.x === goal.x && start.y === goal.y;
    const [x, y] = this.place(cell.x + 0.5, cell.y + 0.5);
    return [x + (isOne ? this.endRadius() * (name === "start" ? -1.15 : 1.15) : 0), y];
  }

  endRadius() {
    const most = this.width < 260 ? 6 : 14;
    return Math.max(Math.min(9, most), Math.min(this.camera.scale * 0.42, most));
  }

  /** A ring round the nearest cell, where no walk leads to the goal. */
  drawNearest(cell, colours) {
    const { context } = this;
    context.beginPath();
    context.arc(...this.place(cell.x + 0.5, cell.y + 0.5), this.endRadius() + 5, 0, 7);
    for (const [colour, width] of [["#fff", 7], [colours.goal, 3.5]]) {
      context.strokeStyle = colour;
      context.lineWidth = width;
      context.stroke();
    }
  }

  drawBad(cell, colours) {
    const { context } = this;
    const [x, y] = this.place(cell.x + 0.5, cell.y + 0.5);
    for (const [colour, width] of [["#fff", 7], [colours.wrong, 3.5]]) {
      context.strokeStyle = colour;
      context.lineWidth = width;
      context.beginPath();
      context.arc(x, y, 13, 0, 7);
      context.moveTo(x - 6, y - 6);
      context.lineTo(x + 6, y + 6);
      context.moveTo(x + 6, y - 6);
      context.lineTo(x - 6, y + 6);
      context.stroke();
    }
  }

  drawCursor(cursor, colours) {
    const { context, camera } = this;
    const side = Math.max(camera.scale * cursor.size, 8);
    const [x, y] = this.place(cursor.x + 0.5, cursor.y + 0.5);
    for (const [colour, width] of [[colours.casing, 4], [colours.mark, 1.5]]) {
      context.strokeStyle = colour;
      context.lineWidth = width;
      context.strokeRect(x - side / 2, y - side / 2, side, side);
    }
  }
}

/** What the colours mean, for the legend. */
export function legend(theme) {
  const colours = palette(theme);
  const ring = `radial-gradient(circle, transparent 3px, ${colours.goal} 3.5px 6px, transparent 6.5px)`;
  return [
    ["land", colours.land], ["swamp (land)", colours.swamp], ["trees (blocked)", colours.trees],
    ["wall (blocked)", colours.wall], ["water", colours.water], ["walk", colours.walk, "line"],
    ["another program's walk", colours.told, "dashed"],
    ["nearest cell to a goal out of reach", ring, "ring"],
    ["taken states, early to late", `linear-gradient(90deg, ${stateRamp(theme).join(", ")})`],
    ["cells that jumps looked at", colours.looked], ["jump from its parent", colours.ray, "line"],
  ];
}
