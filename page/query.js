// Asks for the query that is shown, and tells what the program printed.

import * as api from "./api.js";
import {
  ENGINE_NAMES, RULE_NAMES, byId, canAsk, commandLine, copy, during, element, faultWords, hideBanner, mapWord, on, saveAs, settings,
  showBanner, state, tell, withMade,
} from "./app.js";
import { isSmall, packed, unpacked } from "./grid.js";
import { estimateOf } from "./jumps.js";
import { decimal, readAnswer, readPoint, shortened } from "./lines.js";
import { groundAt, isInside, redraw, setEnd, views } from "./stage.js";
import { ENGINES, RULES, answerWords } from "./words.js";

const wholeText = new TextDecoder();

/** The words of a query for the server. */
export function queryWords(engine, show, keep = false) {
  const ends = { sx: state.start.x, sy: state.start.y, gx: state.goal.x, gy: state.goal.y };
  return { ...settings(engine, show), ...ends, keep };
}

export const hasEnds = () => state.map && state.start && state.goal;
export const endWords = () => [state.start.x, state.start.y, state.goal.x, state.goal.y];

/** The words of the query that is shown, for the command line too. */
const wholeWords = (keep) => queryWords(state.engine, state.showStates ? "trace" : undefined, keep);

// Where an answer takes longer than this, the queries of a drag are short ones: the walk without states, and with one
// state for each cell, which costs the same and is quicker among scattered walls. All is asked where the end rests.
const SLOW_SECONDS = 0.012;
const REST = 150;
// Where the nearest cell takes longer than this it is asked for where the end is dropped.
const SLOW_NEAR = 0.06;
let nearSeconds = 0;
let isShort = false;
let restClock = null;

function shortWords() {
  const words = queryWords(state.engine);
  if (words.states) words.states = "cell";
  return words;
}

/** The answer to a query; where no walk leads to the goal, with the walk to the nearest cell. */
async function answerOf(words, signal) {
  const { bytes, seconds } = await api.query(words, signal);
  const answer = { ...readAnswer(bytes), seconds, words };
  if (answer.kind !== "none" && answer.kind !== "blocked") return answer;
  if (!words.keep && nearSeconds > SLOW_NEAR) return answer;
  const told = await api.query({ ...words, show: undefined, near: true }, signal);
  const near = readAnswer(told.bytes);
  nearSeconds = told.seconds;
  // (From a blocked start there is none.)
  return near.kind === "walk" ? { ...answer, near, points: near.points } : answer;
}

const asker = new api.LastAsked(async ({ keep, isShort: isThisShort }, signal) => {
  const words = isThisShort ? shortWords() : wholeWords(keep);
  try {
    const answer = await during("The program is searching", (stop) => answerOf(words, stop), signal);
    state.answer = { ...answer, isShort: isThisShort };
    hideBanner();
    tell("answer");
    clearTimeout(restClock);
    if (isThisShort && state.showStates) restClock = setTimeout(askWhole, REST);
  } catch (fault) {
    if (fault.name === "AbortError" && asker.isPast) return;
    state.answer = null;
    tell("answer");
    if (fault.name === "AbortError") byId("verdict").textContent = "Stopped.";
    else showBanner(...faultWords(fault));
  }
});

function askWhole() {
  if (canAsk() && !state.compare) asker.ask({ keep: false, isShort: false });
}

/** Asks the program; while an end is dragged the answer is not kept in the script. */
export function ask(keep = true) {
  clearTimeout(restClock);
  isShort = !keep && (isShort || state.answer?.seconds > SLOW_SECONDS);
  if (!canAsk() || state.compare) return;
  asker.ask({ keep, isShort });
}

export const isAsking = () => asker.isBusy;

const counted = (count, what) => `${count.toLocaleString("en")} ${what}${count === 1 ? "" : "s"}`;
const groundOf = (cell) => (isInside(cell) ? groundAt(cell) : undefined);

/** What the program printed: its line, and below it that of the nearest cell, where it was asked for one. */
const printed = ({ bytes, near }, told) => [bytes, ...(near ? [near.bytes] : [])].map(told).join("\n");

function nearWords(cell, goal) {
  const away = Number(decimal(...estimateOf(cell, goal)));
  return `The nearest cell that a walk leads to is ${cell.x},${cell.y}, ${counted(away, "cell")} away`;
}

/** The outcome in words, for the large line and the small one. */
export function verdictOf(answer) {
  if (answer.kind !== "walk") {
    const { sx, sy, gx, gy } = answer.words, goal = { x: gx, y: gy };
    const words = answerWords(answer.kind, groundOf({ x: sx, y: sy }), groundOf(goal));
    return [words, answer.near ? nearWords(answer.points.at(-1), goal) : ""];
  }
  const { straight, diagonal, points } = answer;
  return [`${straight} + ${diagonal}·√2`, `${decimal(straight, diagonal)} · ${counted(points.length, "point")}`];
}

/** Of how long it took: the program's answer through the pipes, not a measure. */
export const tookWords = (seconds) => (seconds < 1 ? `${(seconds * 1000).toFixed(seconds < 0.01 ? 2 : 0)}\u00a0ms` : `${seconds.toFixed(1)}\u00a0s`);

function showAnswer() {
  const { answer } = state;
  const [verdict, detail] = answer ? verdictOf(answer) : ["", ""];
  byId("verdict").replaceChildren();
  if (answer) {
    const name = answer.kind === "walk" ? "walk" : answer.kind;
    byId("verdict").append(element("b", { className: `kind ${answer.kind}` }, name), ` ${verdict.replace(/^\w+: /, "")}`);
    const taken = answer.states ? ` · ${answer.words.engine} ${counted(answer.states.count, "state")}` : "";
    byId("detail").textContent = [detail + taken, tookWords(answer.seconds)].filter(Boolean).join(" · ").replace(/^ · /, "");
  } else {
    byId("verdict").textContent = hasEnds() ? "" : "Click the map: first the start, then the goal.";
    byId("detail").textContent = "";
  }
  // While an end is dragged a long line is shown in part, as to lay it out takes as long as the search.
  const most = answer?.words.keep ? 24_000 : 1500;
  byId("printed").textContent = answer ? printed(answer, (it) => shortened(it, most)) : "";
  showCommand();
  const view = views[0];
  if (!state.compare) {
    Object.assign(view.content, { walk: answer?.points, isNear: Boolean(answer?.near) });
    redraw();
  }
}

function showCommand() {
  if (!hasEnds()) return;
  const words = state.answer?.isShort ? state.answer.words : wholeWords();
  const line = endWords().join(" "), serve = ["serve", mapWord()];
  const asked = [commandLine(["query", mapWord(), ...endWords()], words)];
  const near = `echo near ${line} | ${commandLine(serve, { ...words, show: undefined })}`;
  if (state.answer?.near) asked.push(near);
  byId("command").textContent = withMade(asked.join("\n"));
  byId("draw-note").textContent = commandLine(["draw", mapWord(), ...endWords()], words) + " > walk.svg";
  byId("serve-note").textContent = `${commandLine(serve, settings())}\nquery ${line}`;
  if (state.changes) byId("draw-note").textContent += "   (save the edited map first: Edit)";
}

function showEnds(isDragged = false) {
  for (const name of ["start", "goal"]) {
    const field = byId(name);
    if (document.activeElement !== field) field.value = state[name] ? `${state[name].x},${state[name].y}` : "";
  }
  if (!isDragged) showAddress();
}

// The address behind `#`: the query, and the walls of a small map that has no name to be opened by.

const QUIET = 250;
let addressClock = null;

/** Browsers limit how often an address may change, so a drag changes it when it ends, and a stroke when it rests. */
function showAddress() {
  clearTimeout(addressClock);
  if (!hasEnds()) return;
  const query = [...endWords(), state.engine, state.rule, ...(state.cellStates ? ["cell"] : [])].join(",");
  const isDrawn = !state.isNamed || state.changes > 0;
  const walls = isDrawn && isSmall(state.map) ? `;map=${packed(state.map)}` : "";
  history.replaceState(null, "", `#${query}${walls}`);
  byId("link-note").textContent = isDrawn ? (walls ? "It has the walls, too." : "It has the query, not the map: that has more than 64 columns or rows.") : "";
}

/** The map that stands in the address, if there is one. */
export function mapInAddress() {
  const [, told] = location.hash.match(/;map=(.+)$/) || [];
  return told ? unpacked(told) : null;
}

/** Takes over what stands in the address, so that a page that is loaded again shows the same query. */
export function readAddress() {
  const [sx, sy, gx, gy, engine, rule, states] = location.hash.slice(1).split(";")[0].split(",");
  const numbers = [sx, sy, gx, gy].map(Number);
  if (!gy || !numbers.every((it) => Number.isInteger(it) && it >= 0)) return false;
  state.start = { x: numbers[0], y: numbers[1] };
  state.goal = { x: numbers[2], y: numbers[3] };
  if (ENGINE_NAMES.includes(engine)) state.engine = engine;
  if (RULE_NAMES.includes(rule)) state.rule = rule;
  state.cellStates = states === "cell";
  return true;
}

async function draw() {
  const words = { ...wholeWords(), command: "draw" };
  try {
    const { output } = await during("The program is drawing", (signal) => api.run(words, signal));
    saveAs(`walk-${endWords().join("-")}.svg`, output, "image/svg+xml");
  } catch (fault) {
    showBanner(...faultWords(fault));
  }
}

/** One of a few names, with a line below on what the chosen one is. */
function choices(id, name, names, key) {
  byId(id).append(...names.map((it) => element("label", {},
    element("input", { type: "radio", name, value: it, checked: state[key] === it, onchange: () => choose(key, it) }),
    element("span", {}, it))));
}

function choose(key, value) {
  state[key] = value;
  tell("settings");
}

function showChoices() {
  document.querySelectorAll("input[name=engine]").forEach((it) => (it.checked = it.value === state.engine));
  document.querySelectorAll("input[name=rule]").forEach((it) => (it.checked = it.value === state.rule));
  byId("engine-words").textContent = ENGINES[state.engine];
  byId("states").checked = state.cellStates;
  byId("rule-words").textContent = RULES[state.rule];
}

function typed(name) {
  const field = byId(name), cell = readPoint(field.value.trim().replace(/[ ,;]+/, ","));
  field.setCustomValidity(cell ? "" : "a column and a row, as 23,1");
  field.reportValidity();
  if (cell) setEnd(name, cell);
}

export function beginQuery() {
  choices("engines", "engine", ENGINE_NAMES, "engine");
  choices("rules", "rule", RULE_NAMES, "rule");
  for (const name of ["start", "goal"]) byId(name).onchange = () => typed(name);
  byId("swap").onclick = () => {
    if (!hasEnds()) return;
    [state.start, state.goal] = [state.goal, state.start];
    tell("ends", { isDragged: false });
    redraw();
  };
  byId("states").onchange = (event) => choose("cellStates", event.target.checked);
  byId("draw").onclick = () => hasEnds() && draw();
  byId("copy-link").onclick = (event) => {
    showAddress();
    copy(location.href, event.target);
  };
  byId("copy-printed").onclick = ({ target }) => {
    if (state.answer) copy(printed(state.answer, (it) => wholeText.decode(it)), target);
  };
  byId("copy-command").onclick = (event) => copy(byId("command").textContent, event.target);
  on("ends", ({ isDragged }) => {
    showEnds(isDragged);
    ask(!isDragged);
  });
  on("settings", () => {
    showChoices();
    showEnds();
    showCommand();
    ask();
  });
  on("edited", () => {
    clearTimeout(addressClock);
    addressClock = setTimeout(showAddress, QUIET);
    ask();
  });
  addEventListener("pagehide", () => addressClock && showAddress());
  on("answer", showAnswer);
  on("stop", () => {
    clearTimeout(restClock);
    asker.stop();
  });
  on("leave", () => asker.drop());
  on("changed", () => ask());
  on("map", () => {
    showChoices();
    showEnds();
    showAnswer();
  });
}
