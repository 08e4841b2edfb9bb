// The page's words: what engines, rules, answers and faults are, in short sentences.

export const ENGINES = {
  plain: "A*: one state for each cell that it takes. For one query, or few, and for short ones.",
  jps: "Jump Point Search: jumps cell by cell, and takes the ends of jumps alone. Little memory.",
  block: "The same jumps, over 512 cells at a time. For many queries, with edits between them.",
  plus: "JPS+: looks its jumps up in tables, which are made when the map is read. For many queries.",
};

export const RULES = {
  none: "No diagonal move cuts a corner, as in the benchmark.",
  one: "A diagonal move may pass one blocked cell.",
  both: "A diagonal move may pass two, as Godot's AStarGrid2D does.",
};

export const ANSWERS = {
  none: "none: no walk leads to the goal.",
  outside: "outside: an end lies outside the map.",
  blocked: "blocked: an end lies on a wall or in trees.",
  apart: "apart: one end is land, the other water.",
};

const AT = { land: "on land", swamp: "in a swamp", trees: "in trees", wall: "on a wall", water: "in water" };

/** The same, naming the ends; `start` and `goal` are the names of their grounds, none where an end is outside. */
export function answerWords(kind, start, goal) {
  const ends = [["the start", start], ["the goal", goal]];
  const told = (isMeant) => ends.filter(([, it]) => isMeant(it)).map(([end, it]) => `${end} lies ${AT[it] || "outside the map"}`).join(", ");
  const isApart = kind === "none" && (start === "water") !== (goal === "water");
  const words = {
    outside: told((it) => !it), blocked: told((it) => it === "wall" || it === "trees"), none: isApart && told(() => true),
  }[kind];
  return words ? `${kind}: ${words}.` : ANSWERS[kind] || kind;
}

export const VERDICTS = {
  agree: "the listed length is the least one, within a unit of its last decimal (within 1, if it has none)",
  near: "within a hundredth of the least length",
  off: "the listed length is another one",
  none: "no walk joins the ends",
  blocked: "an end is blocked",
  outside: "an end lies outside the map",
  scale: "the entry is of a map of another size",
};

const MAP_FAULTS = {
  M1: "One of the first four lines is absent or has other words: type octile, height H, width W, map.",
  M2: "The height or the width is 0 or above 4096.",
  M3: "A row is shorter or longer than the width.",
  M4: "A row is absent; the line named is the first absent one.",
  M5: "A row has a byte that is none of . G S @ O T W.",
  M6: "A line behind the last row is not empty.",
  C1: "The first line of the scenario is not: version 1.",
  C2: "An entry has fewer than nine fields.",
  C3: "The bucket, a side or a coordinate is no number.",
  C4: "The last field is no length.",
  K1: "A line of the walks is neither none nor points X,Y.",
  K2: "There are more lines of walks than entries, or fewer.",
  P1: "A line of the certificate has another form.",
  P2: "A cell of the certificate stands out of its order.",
  T1: "A line is no command.",
  T2: "A line is longer than 128 bytes.",
  F1: "The table file begins with another head.",
  F2: "The table file has another length.",
  F3: "An entry of the table file is wrong.",
};

/** What the program's line of a fault means; `refused` and `memory` are answers of `serve`, which goes on. */
export function meaning(line, status) {
  const code = line.match(/^(?:jps: \w+|refused) ([A-Z]\d)\b/);
  if (code) return MAP_FAULTS[code[1]] || "";
  if (/ long$/.test(line)) return "The text is longer than the program takes.";
  if (/map large$/.test(line)) return "This engine takes maps of at most 16384 cells.";
  if (line === "jps: read") return "A file could not be read: it is absent, or no regular file.";
  if (line === "jps: write") return "Its answer could not be written.";
  if (/^(jps: )?memory$/.test(line)) return "There was not enough memory. Another engine may need less.";
  if (/^jps: word/.test(line)) return "The words were not accepted.";
  if (/signal|stopped/.test(line)) return "It is started anew with the next query.";
  return status ? `It ended with status ${status}.` : "";
}

/** Why `judge` refused a walk. */
export function refusal(row, points) {
  const [first, second, third, fourth] = row.numbers;
  if (row.why === "none") return `A walk exists: the least cost is ${first} straight and ${second} diagonal moves.`;
  if (row.why === "longer") {
    return `It is legal, and longer: ${first} straight and ${second} diagonal moves, where the least walk has ${third} and ${fourth}.`;
  }
  if (first === 0) return "Its first point is not the start.";
  if (points && first >= points.length) return "The last point is not the goal.";
  const named = (at) => (points?.[at] ? ` (${points[at].x},${points[at].y})` : "");
  return `Point ${first}${named(first)}, counted from 0, is wrong: no legal run of moves leads to it from the one before${named(first - 1)}.`;
}

export const KEYS = [
  ["click", "sets the start, then the goal"],
  ["Shift click", "sets the start"],
  ["drag S or G", "the answer follows"],
  ["drag the map", "moves it"],
  ["wheel, pinch", "zooms"],
  ["Tab", "goes on to the next control; the map is one"],
  ["arrows", "on the map: move the cell that the keys look at (with Shift ten cells)"],
  ["Enter", "on the map: as a click on that cell; in Edit it paints"],
  ["s, g", "set the start, the goal at that cell"],
  ["+ − 0", "zoom in, out, show the whole map"],
  ["p", "plays the search"],
  ["c", "A*, jps by arrival and by cell, and plus side by side"],
  ["u, Ctrl Z", "undo the last stroke"],
  ["Ctrl Y, Ctrl Shift Z", "do it again"],
  ["1 … 6", "go to Query, Search, Edit, Scenario, Judge, Proof"],
  ["Esc", "stops what is under way"],
  ["?", "shows these keys"],
];
