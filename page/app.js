// What all parts of the page share: what is shown, who is told of a change, and what is under way.

import { Fault } from "./fault.js";
import { meaning } from "./words.js";

export const state = {
  map: null, // width, height, cells, path
  bitmap: null,
  theme: "light",
  tab: "query",
  start: null,
  goal: null,
  engine: "plain",
  rule: "none",
  cellStates: false, // whether `states=cell` is asked for
  showStates: true,
  showJumps: true,
  compare: false,
  answer: null,
  edits: 0, // that the program has taken, those that were taken back among them
  changes: 0, // those of them that stand
  isRefused: false, // whether the program refuses the map, so that nothing can be asked of it
  isNamed: true, // whether the map is one that can be opened by its name; else a link has its walls
  program: "jps",
  scen: null, // the paths of the files that were named
  walks: null,
};

export const ENGINE_NAMES = ["plain", "jps", "block", "plus"];
export const RULE_NAMES = ["none", "one", "both"];
export const byId = (id) => document.getElementById(id);

const listeners = {};
export const on = (name, work) => (listeners[name] ||= []).push(work);
export const tell = (name, what) => (listeners[name] || []).forEach((work) => work(what));

export function element(name, attributes = {}, ...children) {
  const made = document.createElement(name);
  for (const [key, value] of Object.entries(attributes)) {
    if (key in made && key !== "list") made[key] = value;
    else made.setAttribute(key, value);
  }
  made.append(...children);
  return made;
}

/** The settings of a call, for the server. */
export function settings(engine = state.engine, show = undefined) {
  const words = { engine, rule: state.rule };
  if (show) words.show = show;
  if (engine !== "plain") words.states = state.cellStates ? "cell" : "arrival";
  return words;
}

const quoted = (word) => (/^[\w./:=,@%+-]+$/.test(word) ? word : `'${word.replaceAll("'", "'\\''")}'`);

/** A call as it is typed. Settings that hold where none is named are left out, but of `serve`, which has others. */
export function commandLine(words, { engine = "plain", rule = "none", show, states } = {}) {
  const line = [state.program, ...words], isServe = words[0] === "serve";
  if (isServe || engine !== "plain") line.push(`engine=${engine}`);
  if (states && (isServe || states !== "arrival")) line.push(`states=${states}`);
  if (show) line.push(`show=${show}`);
  if (rule !== "none") line.push(`rule=${rule}`);
  return line.map((word) => quoted(String(word))).join(" ");
}

const lastPart = (path) => path.split("/").pop();

/** The file of the map before edits; one that the page had made is named as the command that makes it names it. */
export const firstMapWord = () => (state.made ? lastPart(state.map.path) : state.map.path);
/** The file of the map as it is; behind an edit it is the one that is saved. */
export const mapWord = () => (state.changes ? "edited.map" : firstMapWord());
export const scenWord = () => (state.madeScen ? lastPart(state.scen) : state.scen);

/** A command, and above it the commands that make its map and its scenario, where the page had them made. */
export function withMade(line, hasScen = false) {
  const lines = [line];
  const [name, ...numbers] = state.madeScen || [];
  if (hasScen && name) lines.unshift(`${commandLine([name, mapWord(), ...numbers])} > ${scenWord()}`);
  if (state.made && !state.changes) lines.unshift(`${commandLine(state.made)} > ${firstMapWord()}`);
  return lines.join("\n");
}

// What takes longer than half a second is shown, and can be stopped.

const underWay = new Map();

function showBusy() {
  const late = [...underWay.values()].filter((it) => it.isLate);
  byId("busy").hidden = late.length === 0;
  if (late.length) byId("busy-text").textContent = late[late.length - 1].words;
}

/** Works with a signal that Stop aborts; `say` changes the words that are shown meanwhile. */
export async function during(words, work, signal) {
  const control = new AbortController();
  const key = Symbol(words);
  const mine = { words, isLate: false, control };
  underWay.set(key, mine);
  signal?.addEventListener("abort", () => control.abort());
  const clock = setTimeout(() => {
    mine.isLate = true;
    showBusy();
  }, 500);
  const say = (told) => {
    mine.words = told;
    showBusy();
  };
  try {
    return await work(control.signal, say);
  } finally {
    clearTimeout(clock);
    underWay.delete(key);
    showBusy();
  }
}

// While the page is given another map nothing is asked of the one before.

let changes = 0;

/** Works until another map is there; what was asked of the one before is given up, and the query asked anew. */
export async function changeMap(work) {
  changes += 1;
  tell("leave");
  try {
    await work();
  } finally {
    changes -= 1;
  }
  tell("changed");
}

/** Whether a query can be asked. */
export const canAsk = () => Boolean(state.map && state.start && state.goal) && !state.isRefused && changes === 0;

export function stopAll() {
  tell("stop"); // what would be asked next is not
  for (const it of underWay.values()) it.control.abort();
}

/** What a fault is in words: the program's own line, and what it means. */
export function faultWords(fault) {
  if (fault.name === "AbortError") return ["Stopped.", ""];
  if (!(fault instanceof Fault)) return ["The page has a fault of its own.", String(fault)];
  if (fault.kind !== "program") return [fault.message, ""];
  return [fault.message || "jps ended without a word.", meaning(fault.message, fault.status)];
}

export function showBanner(words, meant = "") {
  const banner = byId("banner");
  banner.replaceChildren(element("code", {}, words), element("span", {}, meant ? ` ${meant}` : ""));
  banner.hidden = false;
}

export const hideBanner = () => (byId("banner").hidden = true);

/** Puts a text on the clipboard, and says so on the button and to screen readers. */
export async function copy(text, button) {
  const words = (button.dataset.words ||= button.textContent);
  try {
    await navigator.clipboard.writeText(text);
    button.textContent = "Copied";
  } catch {
    button.textContent = "Not copied";
  }
  byId("spoken").textContent = button.textContent;
  setTimeout(() => (button.textContent = words), 1200);
}

/** Hands bytes to the browser as a file. */
export function saveAs(name, parts, kind) {
  const address = URL.createObjectURL(new Blob([parts], { type: kind }));
  const link = element("a", { href: address, download: name });
  link.click();
  setTimeout(() => URL.revokeObjectURL(address), 10_000);
}
