// A scenario: its entries with verdicts, and the states that each engine takes for them.

import * as api from "./api.js";
import {
  ENGINE_NAMES, byId, commandLine, copy, during, element, faultWords, mapWord, on, saveAs, scenWord, settings, state, withMade,
} from "./app.js";
import { List, chips } from "./list.js";
import { decimal, readEntries, readRow } from "./lines.js";
import { markOf, plot } from "./plot.js";
import { setEnd, showCells } from "./stage.js";
import { VERDICTS } from "./words.js";

const text = new TextDecoder();
const plotted = new Set(["plain", "block"]);
const runs = new Map(); // rows of each engine, by the settings that they were asked with
let entries = [];
let rows = [];
let filter = "all";
let list = null;
let drawn = null;

const key = (engine) => JSON.stringify([settings(engine), state.edits, state.scen, state.map.path]);

/** The rows of a run of `scen`, with how far it is while it goes on. */
async function rowsOf(engine) {
  const name = key(engine);
  if (runs.has(name)) return runs.get(name);
  const words = { ...settings(engine, "taken"), command: "scen" };
  const found = await during(`${engine} runs the scenario`, async (signal, say) => {
    let lines = 0;
    const { output } = await api.run(words, signal, (piece) => {
      for (const byte of piece) if (byte === 10) lines += 1;
      say(`${engine}: row ${lines.toLocaleString("en")} of ${entries.length.toLocaleString("en")}`);
    });
    const told = text.decode(output).trimEnd().split("\n");
    return { rows: told.map(readRow).filter(Boolean), sum: told[told.length - 1] };
  });
  runs.set(name, found);
  return found;
}

const isOfKind = (row) => filter === "all" || (filter === "not agree" ? row.verdict !== "agree" : row.verdict === filter);
const bucketOf = (row) => entries[row.number - 1]?.bucket;
const isListed = (row) => isOfKind(row) && (byId("scen-bucket").value === "" || String(bucketOf(row)) === byId("scen-bucket").value);

const leastOf = (row) => (row.straight === undefined ? undefined : Number(decimal(row.straight, row.diagonal)));
/** How far the listed length is from the least one. */
const errorOf = (row) => (leastOf(row) === undefined ? undefined : Number(entries[row.number - 1]?.listed) - leastOf(row));
const ORDERS = {
  number: (row) => row.number,
  error: (row) => -Math.abs(errorOf(row) ?? 0),
  length: (row) => leastOf(row) ?? 0,
  bucket: (row) => bucketOf(row) ?? 0,
};

/** The rows that are listed, in the order that was asked for. */
function listed() {
  const order = ORDERS[byId("scen-sort").value];
  return rows.filter(isListed).sort((one, other) => order(one) - order(other) || one.number - other.number);
}

function showBuckets() {
  const buckets = [...new Set(rows.map(bucketOf))].filter((it) => it !== undefined).sort((one, other) => one - other);
  byId("scen-bucket").replaceChildren(element("option", { value: "" }, "all"), ...buckets.map((it) => element("option", {}, String(it))));
}

/** The listed rows as a text whose fields are parted by tabs. */
function saveList() {
  const head = ["row", "verdict", "bucket", "start x", "start y", "goal x", "goal y", "listed", "least", "error", "taken"];
  const lines = listed().map((row) => {
    const it = entries[row.number - 1];
    const error = errorOf(row)?.toFixed(6);
    return [row.number, row.verdict, it.bucket, it.sx, it.sy, it.gx, it.gy, it.listed, leastOf(row), error, row.taken].map((field) => field ?? "");
  });
  saveAs("rows.tsv", [head, ...lines].map((line) => `${line.join("\t")}\n`).join(""), "text/tab-separated-values");
}

function showFilter() {
  const counts = {};
  for (const row of rows) counts[row.verdict] = (counts[row.verdict] || 0) + 1;
  const others = rows.length - (counts.agree || 0);
  chips(byId("scen-filter"), [["all", rows.length], ["not agree", others], ...Object.entries(counts)], filter, (name) => {
    filter = name;
    showFilter();
    list.take(listed());
  });
}

function drawRow(box, row) {
  const entry = entries[row.number - 1];
  const error = errorOf(row);
  // A length that was listed without decimals may agree and yet look another one.
  const isTold = error !== undefined && (row.verdict !== "agree" || Math.abs(error) > 0.01);
  box.title = `${row.line}: ${VERDICTS[row.verdict] || ""}`;
  box.append(element("span", { className: "number" }, String(row.number)),
    element("span", { className: `tag ${row.verdict}` }, row.verdict),
    element("span", { className: "grow" }, entry ? `${entry.sx},${entry.sy} → ${entry.gx},${entry.gy}` : ""),
    element("span", { className: "listed" }, entry ? entry.listed : "", isTold ? ` (${error > 0 ? "+" : "−"}${Math.abs(error).toFixed(Math.abs(error) < 1 ? 4 : 1)})` : ""));
}

function pickRow(row) {
  const entry = entries[row.number - 1];
  if (!entry || row.verdict === "scale") return;
  const [start, goal] = [{ x: entry.sx, y: entry.sy }, { x: entry.gx, y: entry.gy }];
  state.start = start;
  setEnd("goal", goal);
  showCells([start, goal]);
  drawn?.showRow(row.number);
  byId("scen-said").replaceChildren(element("code", {}, row.line), ` ${VERDICTS[row.verdict] || ""}`,
    row.straight === undefined ? "" : `: listed ${entry.listed}, least ${decimal(row.straight, row.diagonal)}`);
}

async function showPlot() {
  const series = {};
  try {
    for (const engine of ENGINE_NAMES) if (plotted.has(engine)) series[engine] = (await rowsOf(engine)).rows;
  } catch (fault) {
    byId("plot").textContent = faultWords(fault).join(" ");
    return;
  }
  drawn = plot(series, (number) => {
    const row = rows[number - 1];
    if (!list.items.includes(row)) {
      filter = "all";
      showFilter();
      byId("scen-bucket").value = "";
      list.take(listed());
    }
    list.chooseItem(row);
  });
  byId("plot").replaceChildren(drawn);
}

function beginPlotChoice() {
  byId("plot-engines").append(...ENGINE_NAMES.map((name) => {
    const box = element("input", { type: "checkbox", checked: plotted.has(name), onchange: () => {
      if (box.checked) plotted.add(name);
      else plotted.delete(name);
      showPlot();
    } });
    return element("label", { className: "check" }, box, element("span", {}, markOf(name), name));
  }));
}

/** Asks for the verdicts, where the list is seen and they are not there yet. */
export async function load() {
  byId("scen-other").open = !state.scen;
  byId("scen-none").hidden = Boolean(state.scen);
  byId("scen-some").hidden = byId("save-scen").hidden = !state.scen;
  if (!state.scen || !state.map || state.tab !== "scenario") return;
  byId("scen-command").textContent = withMade(commandLine(["scen", mapWord(), scenWord()], settings(state.engine, "taken")), true);
  try {
    entries = readEntries(await api.scenText());
    const told = await rowsOf(state.engine);
    rows = told.rows;
    byId("scen-sum").textContent = told.sum;
    showBuckets();
    showFilter();
    list.take(listed());
    byId("scen-said").replaceChildren();
  } catch (fault) {
    rows = [];
    list.take(rows);
    byId("scen-filter").replaceChildren();
    byId("plot").replaceChildren();
    const [line, meant] = faultWords(fault);
    byId("scen-sum").replaceChildren(element("code", { className: "fault" }, line), ` ${meant}`);
    return;
  }
  await showPlot();
}

async function makeScenario(event) {
  event.preventDefault();
  const words = { n: Number(event.target.elements.n.value), seed: Number(event.target.elements.seed.value), rule: state.rule };
  try {
    const told = await during("Making a scenario", (signal) => api.problems(words, signal));
    Object.assign(state, { scen: told.scen, walks: told.walks, madeScen: told.madeScen });
    byId("make-scen-said").textContent = "";
    await load();
  } catch (fault) {
    byId("make-scen-said").textContent = faultWords(fault).join(" ");
  }
}

export function beginScenario() {
  list = new List(byId("scen-list"), drawRow, pickRow);
  beginPlotChoice();
  byId("make-scen").onsubmit = makeScenario;
  byId("copy-scen").onclick = (event) => copy(byId("scen-command").textContent, event.target);
  byId("scen-sort").onchange = byId("scen-bucket").onchange = () => list.take(listed());
  byId("save-list").onclick = saveList;
  byId("save-scen").onclick = async () => saveAs(state.scen.split("/").pop(), await api.scenText(), "text/plain");
  on("tab", load);
  on("settings", load);
  on("files", () => {
    runs.clear();
    load();
  });
  on("map", () => {
    runs.clear();
    filter = "all";
    load();
  });
}
