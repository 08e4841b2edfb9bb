// What another program told of a scenario, judged: a refused walk is drawn beside a least one, with the point
// that is wrong.

import * as api from "./api.js";
import { byId, commandLine, copy, during, element, faultWords, mapWord, on, scenWord, state } from "./app.js";
import { List, chips } from "./list.js";
import { readEntries, readJudged, readWalks } from "./lines.js";
import { redraw, setEnd, showCells, views } from "./stage.js";
import { refusal } from "./words.js";

const text = new TextDecoder();
let entries = [];
let told = [];
let rows = [];
let filter = "all";
let list = null;
let loaded = "";

const kind = (row) => (row.why ? `${row.verdict} ${row.why}` : row.verdict);
const isListed = (row) => filter === "all" || row.verdict === filter || kind(row) === filter;

function showFilter() {
  const counts = { all: rows.length };
  for (const row of rows) {
    counts[row.verdict] = (counts[row.verdict] || 0) + 1;
    if (row.why) counts[kind(row)] = (counts[kind(row)] || 0) + 1;
  }
  chips(byId("walks-filter"), Object.entries(counts), filter, (name) => {
    filter = name;
    showFilter();
    list.take(rows.filter(isListed));
  });
}

function drawRow(box, row) {
  const entry = entries[row.number - 1];
  box.title = row.line;
  box.append(element("span", { className: "number" }, String(row.number)),
    element("span", { className: `tag ${row.verdict}` }, kind(row)),
    element("span", { className: "grow" }, entry ? `${entry.sx},${entry.sy} → ${entry.gx},${entry.gy}` : ""));
}

/** The point that is wrong, where the program names one. */
function badPoint(row, points) {
  if (row.why !== "walk" || !points?.length) return null;
  return points[Math.min(row.numbers[0], points.length - 1)];
}

function pickRow(row) {
  const entry = entries[row.number - 1], points = told[row.number - 1];
  if (!entry || row.verdict === "scale") return;
  const [start, goal] = [{ x: entry.sx, y: entry.sy }, { x: entry.gx, y: entry.gy }];
  state.start = start;
  setEnd("goal", goal);
  const bad = badPoint(row, points);
  Object.assign(views[0].content, { told: points, bad });
  byId("walks-said").replaceChildren(element("code", {}, row.line), " ",
    row.verdict === "refused" ? refusal(row, points) : "The told walk is legal and least.");
  if (row.verdict !== "refused" && row.verdict !== "accepted") byId("walks-said").replaceChildren(element("code", {}, row.line));
  showCells([start, goal, ...(points || [])]);
}

function clear() {
  for (const view of views) Object.assign(view.content, { told: null, bad: null });
  redraw();
}

async function load() {
  const isThere = Boolean(state.walks && state.scen);
  byId("walks-none").hidden = isThere;
  byId("walks-some").hidden = !isThere;
  if (state.tab !== "walks") return clear();
  const name = JSON.stringify([state.rule, state.edits, state.walks, state.scen, state.map?.path]);
  if (!isThere || !state.map || loaded === name) return undefined;
  loaded = name;
  byId("walks-command").textContent = commandLine(["judge", mapWord(), scenWord(), state.walks], { rule: state.rule });
  try {
    entries = readEntries(await api.scenText());
    told = readWalks(await api.walksText());
    const { output } = await during("The program is judging", (signal) => api.run({ command: "judge", rule: state.rule }, signal));
    const lines = text.decode(output).trimEnd().split("\n");
    rows = lines.map(readJudged).filter(Boolean);
    byId("walks-sum").textContent = lines[lines.length - 1];
  } catch (fault) {
    rows = [];
    const [line, meant] = faultWords(fault);
    byId("walks-sum").replaceChildren(element("code", { className: "fault" }, line), ` ${meant}`);
  }
  for (const part of ["walks-filter", "walks-list", "walks-said"]) byId(part).hidden = rows.length === 0;
  byId("walks-said").replaceChildren();
  showFilter();
  list.take(rows.filter(isListed));
  return undefined;
}

export function beginWalks() {
  list = new List(byId("walks-list"), drawRow, pickRow);
  byId("copy-walks").onclick = (event) => copy(byId("walks-command").textContent, event.target);
  for (const name of ["tab", "settings", "map"]) on(name, load);
  on("files", () => {
    loaded = "";
    load();
  });
  on("ends", ({ isDragged }) => isDragged && clear());
}
