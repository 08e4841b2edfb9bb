// Begins the page: loads the map, and has what belongs to no part alone: tabs, theme, keys, dialogs.

import * as api from "./api.js";
import { byId, changeMap, element, faultWords, showBanner, state, stopAll, tell, hideBanner, during } from "./app.js";
import { beginCertificate } from "./certificate.js";
import { beginEdit, redo, undo } from "./edit.js";
import { beginFiles, lostWords, showMaps } from "./files.js";
import { mapText } from "./grid.js";
import { ask, beginQuery, mapInAddress, readAddress } from "./query.js";
import { beginScenario } from "./scenario.js";
import { beginSearch, playOnce, playSearch, toggleCompare } from "./search.js";
import { beginStage, fit, groundAt, redraw, zoomBy } from "./stage.js";
import { beginTheme } from "./theme.js";
import { beginWalks } from "./walks.js";
import { KEYS } from "./words.js";

const TABS = ["query", "search", "edit", "scenario", "walks", "certificate"];
// On a larger map the states of a query are shown where they are asked for: their line may be long.
const CELLS_WITH_STATES = 1 << 19;

// Tabs

function showTab(name, isFocused = false) {
  const before = state.tab;
  state.tab = name;
  for (const it of TABS) {
    const isOn = it === name;
    byId(it).hidden = !isOn;
    byId(`tab-${it}`).setAttribute("aria-selected", String(isOn));
    byId(`tab-${it}`).tabIndex = isOn ? 0 : -1;
  }
  document.body.dataset.tab = name;
  if (isFocused) byId(`tab-${name}`).focus();
  byId(`tab-${name}`).scrollIntoView({ block: "nearest", inline: "nearest" });
  if (before !== name) tell("tab", { before });
  redraw();
}

function beginTabs() {
  for (const name of TABS) {
    const tab = byId(`tab-${name}`);
    tab.onclick = () => showTab(name);
    tab.onkeydown = (event) => {
      const by = { ArrowRight: 1, ArrowLeft: -1 }[event.key];
      if (by) showTab(TABS[(TABS.indexOf(name) + by + TABS.length) % TABS.length], true);
    };
  }
  showTab("query");
}

// The map

/** Ends to begin with: free cells near two corners. */
function pickEnds() {
  const { width, height } = state.map;
  const first = (cells) => cells.find((it) => ["land", "swamp"].includes(groundAt(it)));
  const along = Array.from({ length: 200 }, (_, at) => (at + 0.5) / 200);
  const cell = (x, y) => ({ x: Math.min(width - 1, Math.floor(x * width)), y: Math.min(height - 1, Math.floor(y * height)) });
  state.start = first(along.map((it) => cell(0.08 + it * 0.8, 0.12 + it * 0.7))) || null;
  state.goal = first(along.map((it) => cell(0.9 - it * 0.8, 0.85 - it * 0.7))) || null;
}

/** Takes over what the server tells of a map, and loads its cells. */
export async function takeMap(told, isFirst = false) {
  const { program, scen, walks, made, madeScen } = told;
  Object.assign(state, { program, scen, walks, made, madeScen });
  byId("about").textContent = `${told.version}. All that is shown was printed by this program.`;
  const name = told.map.split("/").pop();
  document.title = `${name} – jps: paths on grid maps`;
  state.isRefused = document.querySelector("main").inert = told.fault !== undefined;
  if (told.fault !== undefined) {
    byId("loading").hidden = true;
    byId("map-name").textContent = name;
    showBanner(...faultWords(new api.Fault(told.fault, told.status)));
    return;
  }
  const cells = await during("Loading the map", () => api.cells());
  Object.assign(state, { map: { width: told.width, height: told.height, cells, path: told.map }, edits: 0, changes: 0, answer: null });
  state.isNamed = !(told.made || told.isDropped || told.isLinked);
  hideBanner();
  byId("map-name").textContent = `${name} · ${told.width} × ${told.height}`;
  state.showStates = cells.length <= CELLS_WITH_STATES;
  const isTold = isFirst && readAddress();
  if (!isTold) pickEnds();
  if (isFirst && !isTold && state.showStates) {
    state.engine = "jps"; // what is shown first shows what jumps are
    playOnce();
  }
  tell("map");
  byId("loading").hidden = true;
  ask();
  // How many milliseconds after it was asked for the page has its map on the screen; the test reads it.
  requestAnimationFrame(() => requestAnimationFrame(() => {
    document.body.dataset.shown = Math.round(performance.now());
  }));
}

async function makeMap(form) {
  const words = Object.fromEntries(["seed", "w", "h", "p"].map((it) => [it, Number(form.elements[it].value)]));
  try {
    await changeMap(async () => takeMap(await during("Making a map", (signal) => api.make(words, signal))));
  } catch (fault) {
    showBanner(...faultWords(fault));
  }
}

// Dialogs and keys

function beginDialogs() {
  byId("help-list").append(...KEYS.flatMap(([key, what]) => [element("dt", {}, key), element("dd", {}, what)]));
  byId("open-help").onclick = () => byId("help-dialog").showModal();
  byId("open-make").onclick = () => {
    byId("make-lost").textContent = lostWords();
    byId("make-dialog").showModal();
  };
  byId("make-form").onsubmit = (event) => event.submitter?.value === "make" && makeMap(event.target);
  byId("stop").onclick = stopAll;
  // The other page hands back what the address has, so that the way back leads to the same map and query.
  for (const it of document.querySelectorAll("a[href^='jump.html']")) it.onclick = () => (it.search = location.search, it.hash = location.hash);
}

function keys(event) {
  const isTyping = event.target.matches("input:not([type=radio]):not([type=checkbox]):not([type=range]), textarea");
  if (event.key === "Escape") stopAll();
  if (isTyping || document.querySelector("dialog[open]") || ((!state.map || state.isRefused) && event.key !== "?")) return;
  const isHeld = event.ctrlKey || event.metaKey, letter = event.key.toLowerCase();
  if (isHeld && (letter === "y" || (letter === "z" && event.shiftKey))) redo();
  else if (isHeld && letter === "z") undo();
  else if (event.ctrlKey || event.metaKey || event.altKey) return;
  else if (event.key === "?") byId("help-dialog").showModal();
  else if (event.key === "p") playSearch();
  else if (event.key === "c") toggleCompare();
  else if (event.key === "u") undo();
  else if (event.key === "0") fit();
  else if (event.key === "+" || event.key === "=") zoomBy(1.5);
  else if (event.key === "-") zoomBy(1 / 1.5);
  else if (/^[1-6]$/.test(event.key)) showTab(TABS[Number(event.key) - 1], true);
  else return;
  event.preventDefault();
}

function beginStream() {
  let isLost = false;
  api.stayOpen(() => {
    isLost = true;
    showBanner("jps-page can't be reached.", "What is shown stays; nothing more is answered until it runs again.");
  }, () => {
    if (isLost) hideBanner();
    isLost = false;
  });
}

async function begin() {
  beginStage();
  beginQuery();
  beginSearch();
  beginEdit();
  beginScenario();
  beginWalks();
  beginCertificate();
  beginDialogs();
  let isOpened;
  beginFiles(takeMap, new Promise((done) => (isOpened = done)));
  beginTheme(byId("theme"), (theme) => {
    state.theme = theme;
    tell("theme");
  });
  beginTabs();
  document.addEventListener("keydown", keys);
  try {
    let told = await api.open();
    beginStream();
    showMaps();
    const linked = mapInAddress();
    if (linked) told = { ...(await api.take("map", "linked.map", mapText(linked))), isLinked: true };
    await takeMap(told, true);
    addEventListener("hashchange", () => location.reload());
    isOpened();
  } catch (fault) {
    showBanner(...faultWords(fault));
  }
}

begin();
