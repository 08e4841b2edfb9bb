// The page over a server, which asks the program: the one of two forms that api.js takes where there is one.

import { Fault } from "./fault.js";

let page = null;

async function faultOf(response) {
  const told = await response.json().catch(() => ({}));
  if (told.much) return new Fault("The program printed more than a page can take.", -1, "much");
  if (told.fault !== undefined) return new Fault(told.fault, told.status);
  return new Fault(told.refused || `the server answered ${response.status}`, response.status, "page");
}

async function send(name, words, signal) {
  let response;
  try {
    response = await fetch(name, { method: "POST", body: JSON.stringify({ page, ...words }), signal });
  } catch (fault) {
    if (fault.name === "AbortError") throw fault;
    throw new Fault("jps-page can't be reached: it has ended.", 0, "page");
  }
  if (!response.ok) throw await faultOf(response);
  return response;
}

/** Begins a page: what map it is, or the fault that the program finds in it. */
export async function open() {
  const told = await (await send("open", {})).json();
  page = told.page;
  return told;
}

/** Stays open as long as the page does, so that the server knows when to end its programs. */
export function stayOpen(onLost, onBack) {
  const stream = new EventSource(`alive?page=${page}`);
  stream.onerror = onLost;
  stream.onopen = onBack;
}

async function file(name) {
  const response = await fetch(`${name}?page=${page}`);
  if (!response.ok) throw await faultOf(response);
  return response;
}

/** One byte for each cell of the map, row by row. */
export const cells = async () => new Uint8Array(await (await file("cells")).arrayBuffer());
export const scenText = async () => (await file("scen")).text();
export const walksText = async () => (await file("walks")).text();
export const savedMap = async () => (await file("saved-map")).arrayBuffer();
export const savedScript = async () => (await file("saved-script")).arrayBuffer();

/** The line that answers a query, as bytes, and how many seconds it took. */
export async function query(words, signal) {
  const response = await send("query", words, signal);
  const bytes = new Uint8Array(await response.arrayBuffer());
  return { bytes, seconds: Number(response.headers.get("X-Seconds")) };
}

export const edit = async (words, signal) => (await send("edit", words, signal)).json();
export const make = async (words, signal) => (await send("make", words, signal)).json();
export const problems = async (words, signal) => (await send("problems", words, signal)).json();

/** The last line of a call's output is `= STATUS` and the line of a fault. */
function readEnd(bytes) {
  let at = bytes.length - 1;
  while (at > 0 && bytes[at - 1] !== 10) at -= 1;
  const [, status, line] = new TextDecoder().decode(bytes.subarray(at)).match(/^= (-?\d+) (.*)\n$/) || [];
  if (status === undefined) throw new Fault("the answer broke off", -1, "page");
  if (Number(status) === -1) throw new Fault(line, -1, "much");
  if (Number(status) > 1 || Number(status) < 0) throw new Fault(line, Number(status));
  return { output: bytes.subarray(0, at), status: Number(status) };
}

/** One call of the program; `onPiece` is told how much of its output is there. */
export async function run(words, signal, onPiece = () => {}) {
  const response = await send("run", words, signal);
  const reader = response.body.getReader();
  const pieces = [];
  let size = 0;
  for (;;) {
    const { done, value } = await reader.read();
    if (done) break;
    pieces.push(value);
    size += value.length;
    onPiece(value, size);
  }
  const all = new Uint8Array(size);
  let at = 0;
  for (const piece of pieces) {
    all.set(piece, at);
    at += piece.length;
  }
  return readEnd(all);
}

/** Hands over the bytes of a map ("map"), a scenario ("scen") or walks ("walks"), in place of the one that was there. */
export async function take(kind, name, bytes) {
  const words = new URLSearchParams({ page, kind, name });
  const response = await fetch(`take?${words}`, { method: "POST", body: bytes });
  if (!response.ok) throw await faultOf(response);
  return response.json();
}

/** Calls of the program on a small map that is no page's own: rows of cells, and the words of each call, but the map's. */
export const small = async (rows, calls) => (await (await send("small", { rows, calls })).json()).answers;

/** The maps to choose from: a server has those alone that were named. */
export const maps = () => [];
