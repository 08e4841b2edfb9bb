// Paints walls, land and water. Every cell of a stroke goes to the program as an edit; what it answers is
// counted.

import * as api from "./api.js";
import { byId, commandLine, copy, during, element, faultWords, firstMapWord, on, saveAs, settings, showBanner, state, tell } from "./app.js";
import { groundName, groundPixels, paintMap } from "./bitmap.js";
import { isInside, redraw, takeTools } from "./stage.js";

const MADE = { block: "@", free: ".", flood: "W" };
const VERBS = { land: "free", swamp: "free", wall: "block", trees: "block", water: "flood" };
const MOST_AT_ONCE = 15_000;

const done = []; // strokes: lists of {x, y, before, after}
const undone = [];
const waiting = []; // edits that were not sent yet
let sending = null;
let stroke = null;
let kept = 0; // edits that can't be undone, as some behind them failed

const chosen = (name) => document.querySelector(`input[name=${name}]:checked`).value;
const verbOf = (byte) => VERBS[groundName(byte)];

/** Sets the byte of a cell, on the page alone. */
function put(cell, byte) {
  const at = cell.y * state.map.width + cell.x;
  state.map.cells[at] = byte;
  state.bitmap.pixels[at] = groundPixels(state.theme)[byte];
}

function updateBitmap(cells) {
  if (!cells.length) return;
  let [left, top, right, bottom] = [Infinity, Infinity, 0, 0];
  for (const { x, y } of cells) {
    [left, top] = [Math.min(left, x), Math.min(top, y)];
    [right, bottom] = [Math.max(right, x), Math.max(bottom, y)];
  }
  state.bitmap.update(left, top, right - left + 1, bottom - top + 1);
  redraw();
}

// Strokes

/** Paints the square round a cell; returns the cells that became another ground. */
function stamp(cell) {
  const verb = chosen("brush"), byte = MADE[verb].charCodeAt(0);
  const size = Number(chosen("size")), half = (size - 1) / 2;
  const changed = [];
  for (let y = cell.y - half; y <= cell.y + half; y += 1) {
    for (let x = cell.x - half; x <= cell.x + half; x += 1) {
      if (!isInside({ x, y })) continue;
      const before = state.map.cells[y * state.map.width + x];
      if (verbOf(before) === verb) continue;
      put({ x, y }, byte);
      changed.push({ x, y, before, after: byte });
    }
  }
  return changed;
}

/** The cells between two, so that a quick stroke has no gaps. */
function line(from, to) {
  const count = Math.max(Math.abs(to.x - from.x), Math.abs(to.y - from.y));
  return Array.from({ length: count }, (_, at) => ({
    x: Math.round(from.x + ((to.x - from.x) * (at + 1)) / count),
    y: Math.round(from.y + ((to.y - from.y) * (at + 1)) / count),
  }));
}

function painted(cells) {
  stroke.cells.push(...cells);
  updateBitmap(cells);
  sendAll(cells.map((it) => [verbOf(it.after), it.x, it.y, it.after]));
}

const tools = {
  hover: null,
  size: () => Number(chosen("size")),
  begin(cell) {
    stroke = { last: { ...cell }, cells: [] };
    painted(stamp(cell));
  },
  to(cell) {
    if (!stroke || (cell.x === stroke.last.x && cell.y === stroke.last.y)) return;
    const changed = line(stroke.last, cell).flatMap(stamp);
    stroke.last = { ...cell };
    painted(changed);
  },
  end() {
    if (stroke?.cells.length) {
      done.push(stroke.cells);
      undone.length = 0;
    }
    stroke = null;
    showButtons();
  },
};

export function undo() {
  const cells = done.pop();
  if (!cells) return;
  const back = [...cells].reverse();
  for (const it of back) put(it, it.before);
  updateBitmap(back);
  undone.push(cells);
  sendAll(back.map((it) => [verbOf(it.before), it.x, it.y, it.before]));
  showButtons();
}

export function redo() {
  const cells = undone.pop();
  if (!cells) return;
  for (const it of cells) put(it, it.after);
  updateBitmap(cells);
  done.push(cells);
  sendAll(cells.map((it) => [verbOf(it.after), it.x, it.y, it.after]));
  showButtons();
}

// To the program

function sendAll(edits) {
  for (const it of edits) waiting.push(it);
  sending ??= sendWaiting().finally(() => (sending = null));
}

async function sendWaiting() {
  while (waiting.length) {
    const edits = waiting.splice(0, MOST_AT_ONCE);
    const words = { ...settings(state.engine, state.showStates ? "trace" : undefined), edits };
    try {
      const told = await during("The program is taking the edits", (signal) => api.edit(words, signal));
      state.edits = told.edits;
      showSaid(edits, told.answers.split(" "));
    } catch (fault) {
      await takeBack(fault);
      return;
    }
    tell("edited");
  }
}

/** Shows the map without the edits that the program has not answered. */
async function takeBack(fault) {
  kept = state.edits;
  waiting.length = done.length = undone.length = 0;
  showBanner(faultWords(fault)[0], "The edits that were under way are not on the map.");
  state.map.cells = await api.cells();
  paintMap(state.bitmap, state.map, state.theme);
  showButtons();
  redraw();
}

function showSaid(edits, answers) {
  const last = edits[edits.length - 1];
  const counts = {};
  for (const it of answers) counts[it] = (counts[it] || 0) + 1;
  const told = Object.entries(counts).map(([word, count]) => `${count.toLocaleString("en")} ${word}`).join(", ");
  byId("edit-said").replaceChildren("The program answered ", element("b", {}, told), edits.length > 1 ? ", the last to " : " to ",
    element("code", {}, last.slice(0, 3).join(" ")), ".");
  showButtons();
}

function showButtons() {
  byId("undo").disabled = !done.length;
  byId("redo").disabled = !undone.length;
  const count = kept + done.reduce((sum, cells) => sum + cells.length, 0);
  state.changes = count;
  byId("edit-count").textContent = count ? `${count.toLocaleString("en")} edit${count === 1 ? "" : "s"}` : "";
  if (!state.map) return;
  const script = ["solve", firstMapWord(), "edited.script"];
  byId("edit-command").textContent = commandLine(script, settings(state.engine, state.showStates ? "trace" : undefined));
}

async function save(asked, name) {
  try {
    await sending; // what was painted is in it
    saveAs(name, await asked(), "text/plain");
  } catch (fault) {
    showBanner(...faultWords(fault));
  }
}

export function beginEdit() {
  takeTools(tools);
  byId("undo").onclick = undo;
  byId("redo").onclick = redo;
  byId("save-map").onclick = () => save(api.savedMap, "edited.map");
  byId("save-script").onclick = () => save(api.savedScript, "edited.script");
  byId("copy-edit").onclick = (event) => copy(byId("edit-command").textContent, event.target);
  on("map", () => {
    kept = done.length = undone.length = waiting.length = 0;
    byId("edit-said").textContent = "";
    showButtons();
  });
  on("settings", showButtons);
}
