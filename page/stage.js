// The drawn maps: one, or four side by side with one camera.

import { byId, element, on, state, tell } from "./app.js";
import { groundName, mapBitmap, paintMap } from "./bitmap.js";
import { nodeWords } from "./jumps.js";
import { stateRamp } from "./palette.js";
import { Pointer } from "./pointer.js";
import { Camera, View, legend } from "./view.js";

export const camera = new Camera();
export const views = [];
const cursor = { x: 0, y: 0, isShown: false };
let isFitted = true;
let tools = null; // what edit.js does with strokes

export const takeTools = (given) => (tools = given);
export const isInside = (cell) => cell.x >= 0 && cell.y >= 0 && cell.x < state.map.width && cell.y < state.map.height;
export const groundAt = (cell) => groundName(state.map.cells[cell.y * state.map.width + cell.x]);

const leastScale = () => Math.min(views[0].width / state.map.width, views[0].height / state.map.height, 1) * 0.5;

/** Draws all views with the next frame, after what they share was put in. */
export function redraw() {
  for (const view of views) {
    Object.assign(view.content, { map: state.map, bitmap: state.bitmap, theme: state.theme, start: state.start, goal: state.goal });
    view.content.cursor = cursorShown();
    // Beside a told walk, or below a heat map, the states would only be in the way.
    view.content.picture = state.tab === "walks" || view.content.heat ? null : view.picture;
    view.content.looked = state.showJumps ? view.looked : null;
    view.content.rays = state.showJumps && view.replay?.isJumps ? view.replay.nodes : null;
    view.ask();
  }
}

function cursorShown() {
  if (tools?.hover && state.tab === "edit") return { ...tools.hover, size: tools.size() };
  return cursor.isShown ? { ...cursor, size: 1 } : null;
}

export function fit() {
  if (!state.map || !views.length) return;
  isFitted = true;
  camera.fit(state.map, views[0].width, views[0].height);
  redraw();
}

export function zoomBy(factor, px, py, view = views[0]) {
  isFitted = false;
  camera.zoom(factor, (px ?? view.width / 2) - view.width / 2, (py ?? view.height / 2) - view.height / 2, leastScale());
  camera.clamp(state.map);
  redraw();
}

function pan(dx, dy) {
  isFitted = false;
  camera.x -= dx / camera.scale;
  camera.y -= dy / camera.scale;
  camera.clamp(state.map);
  redraw();
}

/** Moves the map so that these cells are seen. */
export function showCells(cells) {
  const xs = cells.map((it) => it.x), ys = cells.map((it) => it.y);
  const [left, right, top, bottom] = [Math.min(...xs), Math.max(...xs), Math.min(...ys), Math.max(...ys)];
  const view = views[0];
  const isSeen = [[left, top], [right + 1, bottom + 1]].every(([x, y]) => {
    const [px, py] = view.place(x, y);
    return px >= 0 && py >= 0 && px <= view.width && py <= view.height;
  });
  const span = Math.max((right - left + 1) * camera.scale / view.width, (bottom - top + 1) * camera.scale / view.height);
  if (isSeen && span > 0.05) return redraw();
  isFitted = false;
  const scale = Math.min(view.width / (right - left + 1), view.height / (bottom - top + 1)) * 0.7;
  camera.scale = Math.max(leastScale(), Math.min(24, scale));
  camera.x = (left + right + 1) / 2;
  camera.y = (top + bottom + 1) / 2;
  return redraw();
}

// What the pointer does

function endAt(px, py, view) {
  for (const name of ["goal", "start"]) {
    if (!state[name]) continue;
    const [x, y] = view.endPlace(name);
    if (Math.hypot(px - x, py - y) < view.endRadius() + 6) return name;
  }
  return null;
}

function within(cell) {
  return {
    x: Math.max(0, Math.min(state.map.width - 1, cell.x)),
    y: Math.max(0, Math.min(state.map.height - 1, cell.y)),
  };
}

export function setEnd(name, cell, isDragged = false) {
  if (state[name]?.x === cell.x && state[name]?.y === cell.y && isDragged) return;
  state[name] = { x: cell.x, y: cell.y };
  tell("ends", { isDragged });
  redraw();
}

function click(cell, isShifted) {
  if (!isInside(cell)) return;
  const chosen = document.querySelector("input[name=click]:checked").value;
  const name = isShifted ? "start" : chosen;
  setEnd(name, cell);
  const next = name === "start" ? "goal" : "start";
  document.querySelector(`input[name=click][value=${next}]`).checked = true;
}

function tellWhere(cell) {
  byId("where").textContent = cell && state.map && isInside(cell) ? `${cell.x}, ${cell.y}  ${groundAt(cell)}` : "";
}

function hover(cell, view, mode) {
  const isOn = cell && state.map && isInside(cell);
  tellWhere(cell);
  showTip(isOn && !mode ? cell : null, view);
  cursor.isShown = false;
  if (tools) tools.hover = isOn && mode !== "pinch" ? cell : null;
  view.canvas.style.cursor = mode === "pan" ? "grabbing" : "";
  if (state.tab === "edit") redraw();
}

const MOST_TOLD = 3;

/** What is known of the states of a cell: in which order they were taken, at what cost, and why a jump stopped there. */
export function wordsAt(cell, view) {
  if (!view.replay || !state.goal || !view.picture) return [];
  const nodes = view.replay.nodes.filter((it) => it.cell.x === cell.x && it.cell.y === cell.y && it.at < view.picture.shown);
  return nodes.slice(0, MOST_TOLD).flatMap((it) => nodeWords(it, state.goal));
}

/** Shows that beside the map, away from the cell. */
function showTip(cell, view) {
  const lines = cell ? wordsAt(cell, view) : [];
  const tip = byId("tip");
  tip.hidden = lines.length === 0;
  if (!lines.length) return;
  tip.replaceChildren(...lines.map((it) => element("div", {}, it)));
  tip.classList.toggle("below", view.place(cell.x, cell.y)[1] < view.height / 2);
}

const host = {
  endAt, click, hover, pan,
  zoom: zoomBy,
  isPainting: () => state.tab === "edit" && !state.compare,
  strokeBegin(cell) {
    tools.begin(cell);
    tellWhere(cell);
  },
  strokeTo(cell) {
    tools.to(cell);
    tellWhere(cell);
  },
  strokeEnd: () => tools.end(),
  dragEnd: (name, cell) => setEnd(name, within(cell), true),
  dropEnd: () => tell("ends", { isDragged: false }),
};

// What the keys do on a map

function moveCursor(dx, dy) {
  if (!cursor.isShown) Object.assign(cursor, within({ x: Math.floor(camera.x), y: Math.floor(camera.y) }), { isShown: true });
  else Object.assign(cursor, within({ x: cursor.x + dx, y: cursor.y + dy }));
  const [px, py] = views[0].place(cursor.x + 0.5, cursor.y + 0.5);
  if (px < 20 || py < 20 || px > views[0].width - 20 || py > views[0].height - 20) {
    [camera.x, camera.y, isFitted] = [cursor.x, cursor.y, false];
  }
  byId("spoken").textContent = [`column ${cursor.x}, row ${cursor.y}, ${groundAt(cursor)}`, ...wordsAt(cursor, views[0])].join("; ");
  showTip(cursor, views[0]);
  tellWhere(cursor);
  redraw();
}

const MOVES = { ArrowUp: [0, -1], ArrowRight: [1, 0], ArrowDown: [0, 1], ArrowLeft: [-1, 0] };

function key(event) {
  if (!state.map || event.ctrlKey || event.metaKey || event.altKey) return;
  const far = event.shiftKey ? 10 : 1;
  if (MOVES[event.key]) moveCursor(...MOVES[event.key].map((it) => it * far));
  else if (event.key === "Enter" || event.key === " ") {
    if (!cursor.isShown) return;
    if (host.isPainting()) {
      host.strokeBegin(cursor);
      tools.end();
    } else click(cursor, event.shiftKey);
  } else if ((event.key === "s" || event.key === "g") && cursor.isShown) setEnd(event.key === "s" ? "start" : "goal", cursor);
  else return;
  event.preventDefault();
}

// One view or four

function makeView({ name, engine = null, states = null }) {
  const canvas = element("canvas", { tabIndex: 0, role: "application" });
  canvas.setAttribute("aria-label", `Map${name ? `, engine ${name}` : ""}: arrows move a cell, Enter sets an end, ? shows the keys`);
  const caption = element("figcaption", {}, name || "");
  const figure = element("figure", { className: name ? "view named" : "view" }, caption, canvas);
  if (name) figure.dataset.engine = [engine, ...(states ? [states] : [])].join("-");
  caption.hidden = !name;
  byId("views").append(figure);
  const view = new View(canvas, camera);
  Object.assign(view, { name, engine, states, caption });
  view.onResize = () => isFitted && state.map && view === views[0] && fit();
  new Pointer(view, host);
  canvas.addEventListener("keydown", key);
  return view;
}

/** Shows one view, or one for each of these: a name, an engine and its states. */
export function showViews(those) {
  byId("views").replaceChildren();
  views.length = 0;
  byId("views").className = `views of-${those.length}`;
  for (const it of those.length ? those : [{ name: "" }]) views.push(makeView(it));
  if (state.map && isFitted) fit();
  redraw();
}

function showLegend() {
  byId("state-scale").style.background = `linear-gradient(90deg, ${stateRamp(state.theme).join(", ")})`;
  byId("legend-list").replaceChildren(...legend(state.theme).map(([name, colour, kind]) => {
    const swatch = element("i", { className: `swatch ${kind || ""}` });
    swatch.style.background = kind === "dashed" ? `repeating-linear-gradient(90deg, ${colour} 0 6px, transparent 6px 9px)` : colour;
    return element("li", {}, swatch, name);
  }));
}

export function beginStage() {
  showViews([]);
  showLegend();
  byId("zoom-in").onclick = () => zoomBy(1.5);
  byId("zoom-out").onclick = () => zoomBy(1 / 1.5);
  byId("zoom-fit").onclick = fit;
  on("map", () => {
    cursor.isShown = false;
    byId("where").textContent = "";
    state.bitmap = mapBitmap(state.map, state.theme);
    fit();
  });
  on("theme", () => {
    showLegend();
    if (state.map) paintMap(state.bitmap, state.map, state.theme);
    redraw();
  });
}
