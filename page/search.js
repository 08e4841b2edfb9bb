// The taken states: in their order, with a slider and a player, of one engine or of four ways side by side;
// and the jumps between them, with what they looked at.

import * as api from "./api.js";
import { byId, canAsk, during, element, faultWords, on, showBanner, state, tell } from "./app.js";
import { Replay, Rules } from "./jumps.js";
import { readAnswer } from "./lines.js";
import { ask, hasEnds, queryWords } from "./query.js";
import { redraw, showViews, views } from "./stage.js";
import { LookedPicture, statesPicture } from "./states.js";

// Beyond so many cells the four are asked in turn, as each of them has a map and a search in memory.
const MANY_CELLS = 1 << 22;
// Beyond so many cells of a map, or looks of a search, what was looked at is not reckoned.
const MOST_CELLS = 1 << 20;
const MOST_LOOKS = 4_000_000;
const SECONDS_TO_PLAY = 12;
// The ways of searching that differ. `block` reads what `jps` reads by 512 cells at once.
const WAYS = {
  plain: { name: "A*", engine: "plain" },
  arrival: { name: "jps by arrival", engine: "jps", states: "arrival" },
  cell: { name: "jps by cell", engine: "jps", states: "cell" },
  plus: { name: "plus", engine: "plus" },
};
let playing = null;
let isToPlay = false;

const slider = () => byId("at");
const pictures = () => views.flatMap((view) => [view.picture, view.looked]).filter(Boolean);
const counted = (count) => count.toLocaleString("en");

/** Puts the states of an answer into a view. */
function show(view, answer) {
  const states = answer?.states;
  view.picture = states?.count ? statesPicture(states, state.theme) : null;
  view.answer = answer;
  view.replay = view.looked = null;
  if (states?.count && answer.words.keep && state.map.cells.length <= MOST_CELLS) replay(view, answer);
}

/** What the run looked at, by definition from the map and the states that the program took. */
function replay(view, answer) {
  const { sx, sy, gx, gy, rule } = answer.words;
  const rules = new Rules(state.map, rule, { x: sx, y: sy }, { x: gx, y: gy });
  const told = new Replay(rules, answer, MOST_LOOKS);
  if (!told.isWhole) return;
  view.replay = told;
  if (told.isJumps && answer.words.engine !== "plus" && told.looked.x.length) view.looked = new LookedPicture(told.looked, state.theme);
}

/** How much an engine reads: cells, blocks of 512 bits, or entries of its tables. */
function readWords(view) {
  if (!view.replay) return "";
  const { engine } = view.answer.words, { cells, blocks, entries } = view.replay.counts;
  if (engine === "block") return `${counted(blocks)} blocks`;
  return engine === "plus" ? `${counted(entries)} entries` : `${counted(cells)} cells`;
}

function showLooked() {
  const [view] = views;
  const told = !state.compare && readWords(view);
  byId("looked-note").textContent = told
    ? `${view.answer.words.engine} took ${counted(view.answer.states.count)} states, and looked at ${told} to find them (counted by the page, from the map and these states).` : "";
}

/** Sets the slider to the end, where all states are seen. */
function showAll() {
  stopPlaying();
  const most = Math.max(0, ...views.map((view) => view.picture?.states.count ?? 0));
  slider().max = most;
  slider().value = most;
  showCount();
}

function showCount() {
  const count = Number(slider().value);
  const isWhole = count >= Number(slider().max);
  for (const picture of pictures()) picture.show(count);
  for (const view of views) {
    // The walk is seen once the search that found it is.
    const isFound = isWhole || !view.picture || count >= view.picture.states.count;
    view.content.walk = isFound ? view.answer?.points : null;
    if (state.compare) caption(view, count);
  }
  byId("at-count").textContent = `${counted(count)} of ${counted(Number(slider().max))}`;
  redraw();
}

function caption(view, count) {
  const total = view.answer?.states?.count;
  if (total === undefined) return;
  const shown = Math.min(count, total);
  const told = shown < total ? `${counted(shown)} of ${counted(total)}` : counted(total);
  const read = readWords(view);
  view.caption.replaceChildren(element("b", {}, view.name), ` ${told} states`, element("span", {}, read ? `, read ${read}` : ""));
}

// Playing

function stopPlaying() {
  cancelAnimationFrame(playing);
  playing = null;
  byId("play").textContent = "▶";
  byId("play").setAttribute("aria-label", "Play");
}

function play() {
  if (playing) return stopPlaying();
  const most = Number(slider().max);
  if (!most && !state.showStates && !state.compare) {
    byId("show-states").checked = true;
    return showStates(true);
  }
  if (!most) return undefined;
  let shown = Number(slider().value) >= most ? 0 : Number(slider().value);
  let before = performance.now();
  byId("play").textContent = "❚❚";
  byId("play").setAttribute("aria-label", "Pause");
  const step = (now) => {
    const speed = Number(document.querySelector("input[name=speed]:checked").value);
    // Few states go by one at a time, many in at most so many seconds.
    shown += ((now - before) / 1000) * Math.max(1.5 * speed, (most * speed) / (4 * SECONDS_TO_PLAY));
    before = now;
    slider().value = Math.min(most, Math.floor(shown));
    showCount();
    if (shown >= most) return stopPlaying();
    playing = requestAnimationFrame(step);
    return undefined;
  };
  playing = requestAnimationFrame(step);
  return undefined;
}

/** Plays the next answer, where the reader has not asked for less motion. */
export function playOnce() {
  isToPlay = !matchMedia("(prefers-reduced-motion: reduce)").matches;
}

// Side by side

async function askOf(view, signal) {
  const words = { ...queryWords(view.engine, "trace"), states: view.states };
  const told = await during(`${view.name} is searching`, (stop) => api.query(words, stop), signal);
  const answer = { ...readAnswer(told.bytes), seconds: told.seconds, words: { ...words, keep: true } };
  if (view.canvas.isConnected) show(view, answer);
}

const comparer = new api.LastAsked(async (_, signal) => {
  const asked = [...views];
  try {
    if (state.map.cells.length <= MANY_CELLS) await Promise.all(asked.map((view) => askOf(view, signal)));
    else for (const view of asked) await askOf(view, signal);
  } catch (fault) {
    if (fault.name === "AbortError" && comparer.isPast) return;
    showBanner(...faultWords(fault));
  }
  if (!state.compare) return;
  state.answer = (views.find((view) => view.engine === state.engine) || views[0]).answer ?? null;
  tell("answer");
  showAll();
  showCounts();
});

function showCounts() {
  const rows = views.filter((view) => view.answer).map((view) => element("tr", {}, element("th", { scope: "row" }, view.name),
    element("td", {}, `${counted(view.answer.states?.count ?? 0)} states`), element("td", {}, readWords(view))));
  byId("counts").tBodies[0].replaceChildren(...rows);
  byId("counts").hidden = rows.length === 0;
  byId("state-note").textContent = "All cost the same. What they read is counted by the page, from the map and the states that the program took. "
    + (views.length < 4 ? "" : "block takes the states of jps, and reads 512 cells at a time; plus takes them too, and looks each jump up.");
}

/** Shows these ways side by side; none of them is one view again. */
function setCompare(names) {
  state.compare = names.length > 0;
  byId("compare-two").setAttribute("aria-pressed", String(names.length === 2));
  byId("compare-four").setAttribute("aria-pressed", String(names.length === 4));
  byId("counts").hidden = true;
  byId("state-note").textContent = byId("looked-note").textContent = "";
  document.body.classList.toggle("comparing", state.compare);
  showViews(names.map((it) => WAYS[it]));
  if (!hasEnds()) return;
  if (state.compare) {
    if (canAsk()) comparer.ask();
  } else {
    tell("answer");
    ask();
  }
}

const FOUR = Object.keys(WAYS), TWO = ["plain", "arrival"];
/** The same ways again lead back to one view. */
export const toggleCompare = (names = FOUR) => setCompare(state.compare && views.length === names.length ? [] : names);

function showStates(isOn) {
  state.showStates = isOn;
  tell("settings");
}

export function beginSearch() {
  on("tab", () => state.compare && ["edit", "walks", "certificate"].includes(state.tab) && setCompare([]));
  byId("show-states").onchange = (event) => showStates(event.target.checked);
  byId("show-jumps").onchange = (event) => {
    state.showJumps = event.target.checked;
    redraw();
  };
  byId("play").onclick = play;
  slider().oninput = () => {
    stopPlaying();
    showCount();
  };
  byId("compare-two").onclick = () => toggleCompare(TWO);
  byId("compare-four").onclick = () => toggleCompare();
  on("answer", () => {
    if (state.compare) return;
    show(views[0], state.answer);
    showAll();
    showLooked();
    byId("player").classList.toggle("off", !state.showStates);
    byId("state-note").textContent = state.showStates ? "" : "Tick the box to ask for them. On a large map they may be millions.";
    if (isToPlay && state.answer) play();
    isToPlay &&= !state.answer;
  });
  on("stop", () => comparer.stop());
  on("leave", () => comparer.drop());
  for (const name of ["ends", "settings", "edited", "changed"]) on(name, () => state.compare && canAsk() && comparer.ask());
  on("map", () => {
    byId("show-states").checked = state.showStates;
    for (const view of views) show(view, null);
    showAll();
    if (state.compare && canAsk()) comparer.ask();
  });
  on("theme", () => {
    for (const view of views) show(view, view.answer);
    showAll();
  });
}

export const playSearch = play;
