// Reads the lines that the program prints, and the files that it is given. Nothing is reckoned here but
// decimals.

import { Fault } from "./fault.js";

export const DIRECTIONS = ["N", "NE", "E", "SE", "S", "SW", "W", "NW"];
const text = new TextDecoder();
const SPACE = 32, COMMA = 44, COLON = 58, LETTER_T = 116;
const NO_ARRIVAL = 8;
// The arrivals by the codes of their letters.
const ARRIVALS = new Uint8Array(1 << 14).fill(NO_ARRIVAL);
DIRECTIONS.forEach((name, at) => (ARRIVALS[[...name].reduce((code, it) => code * 128 + it.charCodeAt(0), 0)] = at));

/** The decimal of A + B·√2, to be looked at: what is exact is A and B. */
export function decimal(straight, diagonal) {
  return (straight + diagonal * Math.SQRT2).toFixed(6);
}

/** Where ` taken` begins in an answer, or its end. */
function headEnd(bytes) {
  for (let at = bytes.indexOf(LETTER_T); at >= 0; at = bytes.indexOf(LETTER_T, at + 1)) {
    if (at > 0 && bytes[at - 1] === SPACE) return at - 1;
  }
  return bytes.length;
}

/** The states behind ` taken`: columns, rows and arrivals (8 where there is none). */
function readStates(bytes, from) {
  let count = 0;
  for (let at = from; at < bytes.length; at += 1) if (bytes[at] === COLON) count += 1;
  const states = { count, x: new Uint16Array(count), y: new Uint16Array(count), arrival: new Uint8Array(count) };
  let number = 0, index = 0, at = from;
  while (at < bytes.length) {
    const byte = bytes[at];
    if (byte >= 48 && byte <= 57) number = number * 10 + byte - 48;
    else if (byte === COMMA) { states.x[index] = number; number = 0; }
    else if (byte === COLON) {
      states.y[index] = number;
      number = 0;
      let way = 0;
      for (at += 1; at < bytes.length && bytes[at] !== SPACE; at += 1) way = way * 128 + bytes[at];
      states.arrival[index] = ARRIVALS[way] ?? NO_ARRIVAL;
      index += 1;
    }
    at += 1;
  }
  return states;
}

export function readPoint(field) {
  const parts = field.match(/^(\d+),(\d+)$/);
  return parts && { x: Number(parts[1]), y: Number(parts[2]) };
}

/** An answer to a query: its kind, cost and points, and the taken states where they are told. */
export function readAnswer(bytes) {
  const end = headEnd(bytes);
  const fields = text.decode(bytes.subarray(0, end)).split(" ");
  const states = end < bytes.length ? readStates(bytes, end + 6) : null;
  const answer = { kind: fields[0], states, bytes };
  if (answer.kind === "memory" || answer.kind === "refused") throw new Fault(fields.join(" "), 0);
  if (answer.kind === "walk") {
    answer.straight = Number(fields[1]);
    answer.diagonal = Number(fields[2]);
    answer.points = fields.slice(3).map(readPoint);
  }
  return answer;
}

/** The first part of a line, as far as a page can show it. */
export function shortened(bytes, most) {
  if (bytes.length <= most) return text.decode(bytes);
  let end = most;
  while (end > 0 && bytes[end] !== SPACE) end -= 1;
  return `${text.decode(bytes.subarray(0, end))} …  (${bytes.length.toLocaleString("en")} bytes in all; Copy takes them all)`;
}

/** The entries of a scenario, in order; what is wrong with one the program says. */
export function readEntries(scenario) {
  const entries = [];
  for (const line of scenario.split("\n").slice(1)) {
    const fields = line.trim().split(/[ \t]+/);
    if (fields.length < 9) continue;
    const [w, h, sx, sy, gx, gy] = fields.slice(-7, -1).map(Number);
    entries.push({ bucket: Number(fields[0]), w, h, sx, sy, gx, gy, listed: fields[fields.length - 1] });
  }
  return entries;
}

/** The rows of `scen`: number, verdict, least cost and taken states. */
export function readRow(line) {
  const fields = line.split(" ");
  if (fields[0] !== "row") return null;
  const row = { number: Number(fields[1]), verdict: fields[2], line };
  const taken = fields.indexOf("taken");
  if (taken > 0) row.taken = Number(fields[taken + 1]);
  if (["agree", "near", "off"].includes(row.verdict)) {
    row.straight = Number(fields[3]);
    row.diagonal = Number(fields[4]);
  }
  return row;
}

/** The rows of `judge`: number, verdict, and for what it was refused. */
export function readJudged(line) {
  const fields = line.split(" ");
  if (fields[0] !== "row") return null;
  const row = { number: Number(fields[1]), verdict: fields[2], line };
  if (row.verdict === "refused") {
    row.why = fields[3];
    row.numbers = fields.slice(4).map(Number);
  } else if (row.verdict === "accepted") {
    row.numbers = fields.slice(3).map(Number);
  }
  return row;
}

/** What another program told, a walk for each entry: its points, or null for `none`. */
export function readWalks(walks) {
  return walks.split("\n").map((line) => line.trim()).filter((line) => line !== "")
    .map((line) => (line === "none" ? null : line.split(/[ \t]+/).map(readPoint).filter(Boolean)));
}

/** The numbers in a line of bytes, from a place on; returns how many there are. */
function readNumbers(bytes, from, to, numbers) {
  let count = 0, isIn = false;
  for (let at = from; at < to; at += 1) {
    const digit = bytes[at] - 48;
    if (digit >= 0 && digit <= 9) {
      numbers[count] = isIn ? numbers[count] * 10 + digit : digit;
      isIn = true;
    } else if (isIn) {
      count += 1;
      isIn = false;
    }
  }
  return isIn ? count + 1 : count;
}

/** The lines of a certificate that are drawn, by their first letter: no other line has it. */
const WORDS = { 118: "value", 105: "in", 108: "least" };

/** A certificate's cells: with their values (as decimals), or those that can be reached; it may have millions. */
export function readCertificate(bytes) {
  const cells = { x: [], y: [], value: [], kind: "none" };
  const numbers = [0, 0, 0, 0];
  for (let from = 0, to; from < bytes.length; from = to + 1) {
    to = bytes.indexOf(10, from);
    if (to < 0) to = bytes.length;
    const word = WORDS[bytes[from]];
    if (!word) continue;
    readNumbers(bytes, from, to, numbers);
    if (word === "least") {
      cells.kind = "least";
      cells.least = { straight: numbers[0], diagonal: numbers[1] };
      continue;
    }
    cells.x.push(numbers[0]);
    cells.y.push(numbers[1]);
    if (word === "value") cells.value.push(numbers[2] + numbers[3] * Math.SQRT2);
  }
  return cells;
}
