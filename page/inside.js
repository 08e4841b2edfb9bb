// The page without a server: the program's module is asked in workers, and the files are in memory. The one
// of two forms that api.js takes on a site.

import { Fault } from "./fault.js";
import { editMap, mapText, readMap } from "./grid.js";

const text = new TextDecoder();
const bytesOf = (told) => new TextEncoder().encode(told);
const MOST_NAME = /[^\w.+-]/g;
const LINE_FEED = 10;

// Workers

/** One worker with a module of its own; `Stop` ends it, and the next call makes another one. */
class Caller {
  constructor() {
    this.turn = Promise.resolve();
  }

  /** Calls the program when those before have ended. `files` are names and what has the bytes of each. */
  call(words, files, signal, input) {
    const mine = this.turn.then(() => this.now(words, files, signal, input));
    this.turn = mine.catch(() => {});
    return mine;
  }

  start() {
    this.worker = new Worker(new URL("./worker.js", import.meta.url), { type: "module" });
    this.known = {};
  }

  end() {
    this.worker?.terminate();
    this.worker = null;
  }

  now(words, files, signal, input) {
    if (signal?.aborted) throw new DOMException("stopped", "AbortError");
    if (!this.worker) this.start();
    const sent = {};
    for (const [name, bytes] of Object.entries(files)) {
      if (this.known[name] !== bytes) sent[name] = bytes;
      this.known[name] = bytes;
    }
    return new Promise((done, failed) => {
      const stop = () => {
        this.end();
        failed(new DOMException("stopped", "AbortError"));
      };
      signal?.addEventListener("abort", stop, { once: true });
      const ended = (work) => (event) => {
        signal?.removeEventListener("abort", stop);
        work(event);
      };
      this.worker.onmessage = ended(({ data }) => {
        if (data.broken === undefined) return done(data);
        this.end();
        return failed(new Fault(data.broken, -1, "page"));
      });
      this.worker.onerror = ended(() => {
        this.end();
        failed(new Fault("This browser can't run the program: it needs WebAssembly with 64-bit memories (Chromium 133, Firefox 134 or later).", -1, "page"));
      });
      this.worker.postMessage({ words, sent, input });
    });
  }
}

const callers = {}; // one for each engine that is shown, and one for all else
const callerOf = (name) => (callers[name] ||= new Caller());

/** What a call prints; a fault where its status is one. */
async function call(words, files, signal, caller = "", input = "") {
  const told = await callerOf(caller).call(words.map(String), files, signal, input);
  if (told.status > 1) throw new Fault(text.decode(told.err).trim(), told.status);
  return told;
}

// What a page has

const mine = {
  name: "", map: null, bytes: null, since: [], // the edits behind those that the bytes have, as lines
  edits: 0, journal: [], given: {}, made: null, madeScen: null, site: null,
};
// Behind more of them the bytes are made anew: tables of `plus` are mended at each.
const MOST_SINCE = 40;

/** The files of a call: the map as it now is, and what else it reads; no map's name has a colon. */
function files(...others) {
  if (mine.since.length) [mine.bytes, mine.since] = [mapText(mine.map), []];
  return Object.fromEntries([[mine.name, mine.bytes], ...others.map((it) => [`:${it}`, mine.given[it].bytes])]);
}

function settings({ engine, rule, show, states }) {
  const words = [`engine=${engine}`, `rule=${rule}`];
  if (show) words.push(`show=${show}`);
  if (states) words.push(`states=${states}`);
  return words;
}

async function described() {
  const named = (kind) => mine.given[kind]?.name ?? null;
  const told = { map: mine.name, scen: named("scen"), walks: named("walks"), made: mine.made, madeScen: mine.madeScen };
  Object.assign(told, { version: mine.version, program: "jps" });
  if (mine.map) return { ...told, width: mine.map.width, height: mine.map.height };
  const { status, err } = await callerOf("").call(["query", mine.name, "0", "0", "0", "0"], { [mine.name]: mine.bytes });
  return { ...told, status, fault: text.decode(err).trim() };
}

function takeMap(name, bytes, made = null) {
  Object.assign(mine, { name, bytes, made, map: readMap(bytes), since: [] });
  Object.assign(mine, { edits: 0, journal: [], given: {}, madeScen: null });
}

async function fetched(name) {
  const response = await fetch(new URL(name, import.meta.url));
  if (!response.ok) throw new Fault(`There is no ${name} on this site.`, response.status, "page");
  return new Uint8Array(await response.arrayBuffer());
}

export const maps = () => mine.site?.maps.map((it) => it.map) ?? [];

/** Begins a page with the map that the address names (`?map=NAME`), else with the site's first one. */
export async function open() {
  mine.site = JSON.parse(text.decode(await fetched("site.json")));
  mine.version = text.decode((await call(["--version"], {})).out).trim();
  const asked = new URLSearchParams(location.search).get("map");
  const entry = mine.site.maps.find((it) => it.map === asked) || mine.site.maps[0];
  takeMap(entry.map, await fetched(`maps/${entry.map}`));
  if (entry.scen) mine.given.scen = { name: entry.scen, bytes: await fetched(`maps/${entry.scen}`) };
  return described();
}

export function stayOpen() {}

export const cells = async () => mine.map.cells.slice();
export const scenText = async () => text.decode(mine.given.scen.bytes);
export const walksText = async () => text.decode(mine.given.walks.bytes);
export const savedMap = async () => mapText(mine.map);
export const savedScript = async () => bytesOf(mine.journal.map((line) => `${line}\n`).join(""));

/** Takes the bytes of a map ("map"), a scenario ("scen") or walks ("walks"), in place of the one that was there. */
export async function take(kind, name, bytes) {
  const word = name.replace(MOST_NAME, "_") || kind;
  if (kind === "map") takeMap(word, bytes);
  else mine.given[kind] = { name: word, bytes };
  if (kind === "scen") [mine.madeScen, mine.given.walks] = [null, undefined];
  return described();
}

// What the program is asked

/**
 * What these lines are answered, behind the edits: by `live`, or by `serve`, which begins each session with a pass over
 * the map, and so is asked here for the nearest cell alone.
 */
function lines(words, asked, signal, caller = words.engine) {
  const map = mine.since.length > MOST_SINCE ? files() : { [mine.name]: mine.bytes };
  const input = [...mine.since, ...asked].map((it) => `${it}\n`).join("");
  return call([words.near ? "serve" : "live", mine.name, ...settings(words)], map, signal, caller, input);
}

/** The line that answers a query, as bytes, and how many seconds it took. */
export async function query(words, signal) {
  const { sx, sy, gx, gy, keep, near } = words;
  const line = `${near ? "near" : "query"} ${sx} ${sy} ${gx} ${gy}`;
  const { out, seconds } = await lines(words, [line], signal);
  if (keep && !near) mine.journal.push(line);
  return { bytes: out.subarray(out.lastIndexOf(LINE_FEED, -2) + 1, -1), seconds };
}

/** Works edits [verb, x, y, byte] on the map as it is; the program says of each what it did. */
export async function edit({ edits, rule }, signal) {
  const asked = edits.map((it) => it.slice(0, 3).join(" "));
  const { out } = await lines({ engine: "block", rule }, asked, signal, "");
  const answers = text.decode(out).trimEnd().split("\n").slice(-asked.length);
  edits.forEach((it, at) => {
    if (answers[at] !== "ok") return;
    editMap(mine.map, ...it);
    mine.since.push(asked[at]);
    mine.edits += 1;
  });
  mine.journal.push(...asked);
  return { answers: answers.join(" "), edits: mine.edits };
}

export async function make({ seed, w, h, p }, signal) {
  const words = ["make", seed, w, h, p].map(String);
  const { out } = await call(words, {}, signal);
  takeMap(`${words.join("-")}.map`, out, words);
  return described();
}

export async function problems({ n, seed, rule }, signal) {
  const { out } = await call(["problems", mine.name, seed, n, `rule=${rule}`], files(), signal);
  mine.given = { scen: { name: `problems-${seed}-${n}.scen`, bytes: out } };
  mine.madeScen = ["problems", String(seed), String(n), `rule=${rule}`];
  return described();
}

/** The words of a single call, and its files. */
function wordsOf(words) {
  const { command, sx, sy, gx, gy, rule } = words;
  const ends = [sx, sy, gx, gy];
  const tell = (...others) => [[command, mine.name, ...others.map((it) => `:${it}`)], files(...others)];
  if (command === "draw" || command === "prove") {
    return [[command, mine.name, ...ends, ...(command === "draw" ? settings(words) : [`rule=${rule}`])], files()];
  }
  const [line, read] = command === "scen" ? tell("scen") : command === "judge" ? tell("scen", "walks") : tell("cert");
  return [[...line, ...(command === "scen" ? settings(words) : [`rule=${rule}`])], read];
}

/** One call of the program; `onPiece` is told how much of its output is there. */
export async function run(words, signal, onPiece = () => {}) {
  const told = await call(...wordsOf(words), signal, words.engine);
  if (words.command === "prove") mine.given.cert = { name: "walk.cert", bytes: told.out };
  onPiece(told.out, told.out.length);
  return { output: told.out, status: told.status };
}

/** Calls of the program on a small map that is no page's own: rows of cells, and the words of each call, but the map's. */
export async function small(rows, calls) {
  const bytes = bytesOf(`type octile\nheight ${rows.length}\nwidth ${rows[0].length}\nmap\n${rows.join("\n")}\n`);
  const answers = [];
  for (const [name, ...words] of calls) {
    const { status, out } = await call([name, "small", ...words], { small: bytes }, undefined, "small");
    answers.push({ status, out: Array.from(out, (byte) => String.fromCharCode(byte)).join("") });
  }
  return answers;
}
