// The figures of "What is a jump?": what is shown is what the program prints for the walls as they are drawn.

import * as api from "./api.js";
import { byId, faultWords, showBanner } from "./app.js";
import { Figure } from "./figure.js";
import { Replay, Rules, cellAfter, estimateOf, isDiagonal } from "./jumps.js";
import { readAnswer } from "./lines.js";
import { beginTheme } from "./theme.js";

const WAYS = ["up", "up and right", "right", "down and right", "down", "down and left", "left", "up and left"];
const bytesOf = (words) => new TextEncoder().encode(words);
const same = (one, other) => one.x === other.x && one.y === other.y;
const told = ({ x, y }) => `(${x},${y})`;
const mapOf = (rows) => ({ width: rows[0].length, height: rows.length, cells: bytesOf(rows.join("")) });
const cellsAlong = (from, d, count) => Array.from({ length: count }, (_, at) => cellAfter(from, d, at + 1));

function costWords([straight, diagonal]) {
  if (!diagonal) return String(straight);
  const root = diagonal === 1 ? "√2" : `${diagonal}·√2`;
  return straight ? `${straight} + ${root}` : root;
}

/** The program's least walks between pairs of cells: cost and all cells, or null where there is none. */
async function walks(rows, rule, pairs) {
  const calls = pairs.map(([from, to]) => ["query", from.x, from.y, to.x, to.y, "engine=jps", "show=cells", `rule=${rule}`].map(String));
  const answers = await api.small(rows, calls);
  return answers.map(({ out }) => {
    const { kind, straight, diagonal, points } = readAnswer(bytesOf(out.trimEnd()));
    return kind === "walk" ? { cost: [straight, diagonal], points } : null;
  });
}

const linesOf = (points, kind) => points.slice(1).map((to, at) => ({ from: points[at], to, kind, isArrow: at === points.length - 2 }));

// 1 and 2: the neighbours of x

const X = { x: 1, y: 1 };
const ARRIVALS = {
  straight: { from: { x: 0, y: 1 }, natural: [2] },
  diagonal: { from: { x: 0, y: 2 }, natural: [1, 0, 2] },
};
const arrivalOf = (figure) => ARRIVALS[figure.chosen];
const marks = ({ from }) => [{ cell: from, words: ">" }, { cell: X, words: "x" }];

/**
 * What the program's walks say of each neighbour of x: it is kept where its walk goes over x, right before it. None,
 * where the move from > to x is not legal.
 */
async function neighbours(rows, rule, { from, natural }) {
  const all = [0, 1, 2, 3, 4, 5, 6, 7].map((d) => ({ d, cell: cellAfter(X, d) }))
    .filter(({ cell }) => !same(cell, from) && rows[cell.y][cell.x] !== "@");
  const [came, ...found] = await walks(rows, rule, [X, ...all.map(({ cell }) => cell)].map((cell) => [from, cell]));
  return came?.points.length !== 2 ? null : all.map((it, at) => {
    const points = found[at]?.points ?? [], last = points[points.length - 2];
    const isKept = points.length > 2 && same(last, X);
    return { ...it, walk: found[at], isKept, isForced: isKept && !natural.includes(it.d) };
  });
}

function neighbourStep(it, arrival) {
  const kind = it.isForced ? "forced" : it.isKept ? "kept" : "pruned";
  const cost = it.walk && costWords(it.walk.cost);
  const words = {
    forced: `${told(it.cell)} is a forced neighbour: the least path from > costs ${cost}, and goes over x.`,
    kept: `${told(it.cell)} is a natural neighbour: the least path from >, diagonal moves first, `
      + `costs ${cost}, and goes over x.`,
    pruned: it.walk ? `${told(it.cell)} is pruned: a least path from > costs ${cost}, and does not need x.` : `${told(it.cell)} can't be reached here.`,
  }[kind];
  return { words, cells: [{ ...it.cell, kind }], lines: it.walk ? linesOf(it.walk.points, "walk") : [], letters: marks(arrival) };
}

const lost = (rule, arrival) => ({
  words: `Under the rule ${rule} the move from > to x cuts a corner, and is not legal. `
    + "Take away a wall beside it, or change the rule.",
  letters: marks(arrival),
});

async function prunedSteps(figure) {
  const arrival = arrivalOf(figure);
  const all = await neighbours(figure.rows, figure.rule, arrival);
  if (!all) return [lost(figure.rule, arrival)];
  const kept = all.filter((it) => it.isKept);
  const cells = all.map((it) => ({ ...it.cell, kind: it.isForced ? "forced" : it.isKept ? "kept" : "pruned" }));
  const lines = [{ from: arrival.from, to: X, kind: "walk" }, ...kept.map(({ cell }) => ({ from: X, to: cell, kind: "ray", isArrow: true }))];
  return [
    { words: "The search came from > to x. Which neighbours does x need? Step through them.", letters: marks(arrival), lines: lines.slice(0, 1) },
    ...all.map((it) => neighbourStep(it, arrival)),
    { words: `So x puts ${kept.length} of its ${all.length} neighbours on the list, and prunes the others.`, cells, lines, letters: marks(arrival) },
  ];
}

async function forcedSteps(figure) {
  const arrival = arrivalOf(figure), open = ["...", "...", "..."];
  const byRule = {};
  for (const rule of ["none", "one", "both"]) byRule[rule] = (await neighbours(figure.rows, rule, arrival))?.filter((it) => it.isForced);
  const forced = byRule[figure.rule];
  if (!forced) return [lost(figure.rule, arrival)];
  const before = await walks(open, figure.rule, forced.map(({ cell }) => [arrival.from, cell]));
  const steps = forced.flatMap((it, at) => [
    { words: `On open ground the least path to ${told(it.cell)} costs ${costWords(before[at].cost)}, and does not need x.`, cells: [{ ...it.cell, kind: "pruned" }],
      lines: linesOf(before[at].points, "other"), letters: marks(arrival) },
    { ...neighbourStep(it, arrival), words: `A wall closes that path. The least one now costs ${costWords(it.walk.cost)}, and goes over x: ${told(it.cell)} is a forced neighbour.` },
  ]);
  const names = (cells) => cells.map(({ cell }) => told(cell)).join(" and ") || "nothing";
  const count = (rule) => (byRule[rule] ? `rule ${rule} forces ${names(byRule[rule])}`
    : `under rule ${rule} the move to x is not legal`);
  const cells = forced.map(({ cell }) => ({ ...cell, kind: "forced" }));
  const words = `With these walls ${count("none")}; ${count("one")}; ${count("both")}.`;
  const lines = [{ from: arrival.from, to: X, kind: "walk" }, ...forced.map(({ cell }) => ({ from: X, to: cell, kind: "ray", isArrow: true }))];
  return [...steps, { words, cells, lines, letters: marks(arrival) }];
}

// 3 and 4: one jump

/** The program's table entry of a cell and a direction: the moves to a jump point, or minus those to the run's end. */
async function entryOf(rows, rule, { x, y }, d) {
  const [{ out }] = await api.small(rows, [["tables", `rule=${rule}`]]);
  const at = 13 + 16 * (y * rows[0].length + x) + 2 * d;
  const number = out.charCodeAt(at) + 256 * out.charCodeAt(at + 1);
  return number > 32767 ? number - 65536 : number;
}

/** The last step of a jump; the program's table has to say the same. */
async function jumpEnd(figure, start, jump, base) {
  const entry = await entryOf(figure.rows, figure.rule, start, jump.d);
  figure.box.dataset.agrees = String(entry === (jump.stop ? jump.count : -jump.count));
  const says = `The program's table of jumps (see 5) has ${entry} for s`;
  if (!jump.stop) {
    return { ...base, words: `The run ends after ${jump.count} moves, and nothing was forced: nothing goes on the list. ${says}: minus, as there is no jump point.` };
  }
  const why = jump.stop.why === "forced" ? `${told(jump.stop.to)} is a forced neighbour, by the wall at ${told(jump.stop.wall)}`
    : `its look ${WAYS[jump.stop.d]} meets a jump point at ${told(jump.stop.at)}`;
  const cost = costWords(isDiagonal(jump.d) ? [0, jump.count] : [jump.count, 0]);
  const turn = jump.stop.to ?? jump.stop.then.to;
  return { ...base, cells: [...base.cells, { ...jump.cell, kind: "stop" }, { ...turn, kind: "forced" }],
    lines: [{ from: start, to: jump.cell, kind: "ray", isArrow: true }],
    words: `${told(jump.cell)} is a jump point: ${why}. `
      + `${told(jump.cell)} goes on the list, at ${cost} more than s. ${says}.` };
}

const LEFT = { x: 1, y: 2 };
async function straightSteps(figure) {
  const rules = new Rules(mapOf(figure.rows), figure.rule, LEFT);
  const jump = { d: 2, ...rules.straight(LEFT, 2) };
  const letters = [{ cell: LEFT, words: "s" }];
  const run = cellsAlong(LEFT, 2, jump.count);
  const passed = jump.stop ? run.slice(0, -1) : run;
  const looked = (count) => run.slice(0, count).map((cell) => ({ ...cell, kind: "looked" }));
  return [
    { words: "A jump from s to the right. It asks at each cell: is a neighbour forced here?", letters },
    ...passed.map((cell, at) => ({ words: `${told(cell)}: nothing is forced. One neighbour is natural, straight on: go there, and put nothing on the list.`,
      cells: looked(at + 1), lines: [{ from: LEFT, to: cell, kind: "ray" }], letters })),
    await jumpEnd(figure, LEFT, jump, { cells: looked(run.length), letters }),
  ];
}

const CORNER = { x: 1, y: 7 };
async function diagonalSteps(figure) {
  const rules = new Rules(mapOf(figure.rows), figure.rule, CORNER);
  const jump = rules.jump(CORNER, 1);
  const letters = [{ cell: CORNER, words: "s" }], cells = [], steps = [];
  const add = (words, more = []) => steps.push({ words, cells: [...cells, ...more], letters, lines: [{ from: CORNER, to: cells[cells.length - 1] ?? CORNER, kind: "ray" }] });
  add("A jump from s up and right. After this move three neighbours are natural: "
    + "up, right, and up and right.");
  for (const cell of cellsAlong(CORNER, 1, jump.count)) {
    cells.push({ ...cell, kind: "looked" });
    const looks = jump.looks.filter((it) => same(it.from, cell));
    if (!looks.length) add(`${told(cell)}: here a neighbour is forced.`);
    for (const look of looks) {
      const run = cellsAlong(cell, look.d, look.count).map((it) => ({ ...it, kind: "aside" }));
      const what = look.stop ? `it meets a jump point at ${told(look.cell)}` : look.count ? "a wall or the edge comes first: nothing" : "there is no room";
      add(`${told(cell)} looks ${WAYS[look.d]}, as a straight jump would: ${what}.`, run);
      if (look.stop) cells.push(...run.slice(0, -1), { ...look.cell, kind: "stop" });
    }
  }
  return [...steps, await jumpEnd(figure, CORNER, jump, { cells, letters })];
}

// 5: a whole search

const START = { x: 1, y: 7 }, GOAL = { x: 9, y: 1 };
const ENDS = [{ cell: START, words: "S", kind: "start" }, { cell: GOAL, words: "G", kind: "goal" }];

async function answersOf(rows, rule) {
  const ends = [START.x, START.y, GOAL.x, GOAL.y].map(String);
  const call = (states) => ["query", ...ends, "engine=jps", `states=${states}`, "show=trace", `rule=${rule}`];
  const both = await api.small(rows, [call("arrival"), call("cell")]);
  return both.map(({ out }, at) => ({ ...readAnswer(bytesOf(out.trimEnd())), words: { engine: "jps", states: at ? "cell" : "arrival" } }));
}

const counted = (count, what) => `${count} ${what}${count === 1 ? "" : "s"}`;

/** What one state reads: cells of runs, whole lines of bits, or entries of the tables. */
function readOf(node, mode, rows) {
  const straights = node.offers.flatMap((it) => (isDiagonal(it.d) ? it.looks : [{ from: node.cell, ...it }]));
  if (mode === "tables") {
    const jumps = counted(node.offers.length, "jump");
    return { words: `It looks up ${jumps}; a number is a jump's length.`, cells: [] };
  }
  if (mode === "blocks") {
    const lines = new Set(straights.map(({ from, d }) => (d % 4 === 2 ? `y${from.y}` : `x${from.x}`)));
    const isRead = (x, y) => lines.has(`y${y}`) || lines.has(`x${x}`);
    const cells = rows.flatMap((row, y) => [...row].map((_, x) => ({ x, y, kind: "bits" }))).filter(({ x, y }) => isRead(x, y));
    const what = lines.size === 1 ? "one row or column" : `${lines.size} rows and columns`;
    return { words: `It reads ${what} as bits, each at once, with the lines on its two sides.`, cells };
  }
  const runs = node.offers.flatMap((it) => [...cellsAlong(node.cell, it.d, it.count), ...it.looks.flatMap((look) => cellsAlong(look.from, look.d, look.count))]);
  return { words: `It looks at ${counted(runs.length, "cell")}.`, cells: runs.map((cell) => ({ ...cell, kind: "looked" })) };
}

function searchStep(node, at, run, { chosen, rows }) {
  const read = readOf(node, chosen, rows);
  const stops = node.offers.filter((it) => it.stop);
  const isGoal = same(node.cell, GOAL);
  const came = node.arrival < 8 ? `, reached by a move ${WAYS[node.arrival]}` : "";
  const met = stops.map((it) => told(it.cell)).join(", ") || "no jump point";
  const before = run.nodes.slice(0, at).filter(({ cell }) => same(cell, node.cell)).map((it) => it.at + 1);
  const again = before.length ? ` State ${before.join(" and ")} had this cell, too, by another arrival: it is searched from once more.`
    : chosen === "cell" && node.equals.length ? ` ${node.equals.map((it) => told(it.cell)).join(", ")} was there before at the same cost: what came first stays.` : "";
  return {
    words: `State ${at + 1}: ${told(node.cell)}${came}. So far ${costWords(node.cost)}, estimate ${costWords(estimateOf(node.cell, GOAL))}. `
      + (isGoal ? "It is the goal." : `${read.words} Its jumps meet ${met}.${again}`),
    cells: [...(isGoal ? [] : read.cells), ...run.nodes.slice(0, at).map(({ cell }) => ({ ...cell, kind: "taken" })), { ...node.cell, kind: "stop" }],
    lines: [...run.nodes.slice(1, at + 1).map(({ cell, parent }) => ({ from: parent.cell, to: cell, kind: "past" })),
      ...stops.map(({ cell }) => ({ from: node.cell, to: cell, kind: "ray", isArrow: true }))],
    letters: [...ENDS, ...(chosen === "tables" ? stops.map((it) => ({ cell: it.cell, words: String(it.count), kind: "entry" })) : [])],
  };
}

/** Whether a run of so many straight moves is legal. */
const isRun = (rules, from, d, count) => [from, ...cellsAlong(from, d, count - 1)].every((cell) => rules.isLegal(cell, d));

/**
 * A turn that a dropped arrival alone allows: behind the run of the arrival that stays it is a diagonal, which can be
 * made first, where that run began.
 */
function swapStep(run, rules) {
  for (const { cell, d } of run.nodes.flatMap((node) => node.equals)) {
    const stays = run.nodes.find((it) => same(it.cell, cell));
    if (!stays?.parent || isDiagonal(stays.arrival)) continue;
    const kept = rules.allowed(cell, stays.arrival), begin = stays.parent.cell;
    const isSwap = (it) => [1, 7].includes((it - stays.arrival + 8) % 8) && !kept.includes(it);
    for (const turn of rules.allowed(cell, d).filter(isSwap)) {
      const [first, end] = [cellAfter(begin, turn), cellAfter(cell, turn)];
      if (!rules.isLegal(begin, turn) || !isRun(rules, first, stays.arrival, stays.jump.count)) continue;
      return { words: `Nothing is lost. At ${told(cell)} the dropped arrival alone would turn ${WAYS[turn]} (dashed). The one that stays came ${WAYS[stays.arrival]} from ${told(begin)}: `
        + `make the diagonal move first, there. The path over ${told(first)} to ${told(end)} costs the same, `
        + "so that turn is not needed.",
      letters: ENDS, cells: [{ ...cell, kind: "pruned" }, { ...end, kind: "kept" }],
      lines: [...linesOf([begin, cell, end], "other"), ...linesOf([begin, first, end], "walk")] };
    }
  }
  return null;
}

async function searchSteps(figure) {
  const [byArrival, byCell] = await answersOf(figure.rows, figure.rule);
  const answer = figure.chosen === "cell" ? byCell : byArrival;
  const rules = new Rules(mapOf(figure.rows), figure.rule, START, GOAL);
  const [arrivals, cells] = [byArrival, byCell].map((it) => new Replay(rules, it));
  const run = answer === byCell ? cells : arrivals;
  const twice = arrivals.nodes.length - new Set(arrivals.nodes.map(({ cell }) => told(cell))).size;
  const counts = `By arrival the search takes ${counted(arrivals.nodes.length, "state")}${twice ? `, ${twice} of them at cells that it had taken before` : ""}, and looks at ${arrivals.counts.cells} cells; `
    + `with one state a cell it takes ${cells.nodes.length}, and looks at ${cells.counts.cells}.`;
  const swap = figure.chosen === "cell" && swapStep(run, rules);
  const end = answer.kind === "walk" ? { words: `The least path costs ${costWords([answer.straight, answer.diagonal])}. ${counts}`, lines: linesOf(answer.points, "walk"), letters: ENDS }
    : { words: `Nothing waits any more: no path leads to the goal. ${counts}`, letters: ENDS };
  end.cells = run.nodes.map(({ cell }) => ({ ...cell, kind: "taken" }));
  return [...run.nodes.map((node, at) => searchStep(node, at, run, figure)), end, ...(swap ? [swap] : [])];
}

// The page

const OPEN = ["...", "...", "..."];
const BY = [["straight", "after a straight move"], ["diagonal", "after a diagonal move"]];
const JUMPED = [["looked", "looked at"], ["stop", "jump point"], ["forced", "forced"]];
const MODES = [["cells", "cell by cell"], ["blocks", "by blocks"], ["tables", "by tables"], ["cell", "one state a cell"]];

function beginFigures() {
  const pruning = { choices: BY, key: [["kept", "natural"], ["forced", "forced"], ["pruned", "pruned"]], fixed: (it) => [X, arrivalOf(it).from] };
  new Figure(byId("prune"), { ...pruning, rows: OPEN, steps: prunedSteps });
  new Figure(byId("forced"), { ...pruning, rows: ["@..", "...", ".@."], steps: forcedSteps });
  new Figure(byId("straight"), { rows: ["...........", ".....@@....", "...........", "...........", "..........."], key: JUMPED, fixed: () => [LEFT], steps: straightSteps });
  new Figure(byId("diagonal"), {
    rows: ["...........", "...........", ".......@...", ".......@...", "...........", "...........", "...........", "...........", "..........."],
    key: JUMPED, fixed: () => [CORNER], steps: diagonalSteps,
  });
  const key = [
    ["stop", "taken now"], ["taken", "taken before"], ["looked", "looked at"], ["bits", "read as bits"],
  ];
  new Figure(byId("whole"), { rows: SEARCHED, choices: MODES, key, fixed: () => [START, GOAL], steps: searchSteps });
}

const SEARCHED = [
  "........@.@", "....@.@....", "........@..", "..@...@.@@.", "...........", "..@........", "@..........", "..@....@.@@", ".....@...@.",
];

async function begin() {
  beginTheme(byId("theme"), () => {});
  for (const it of document.querySelectorAll("a[href='./']")) [it.search, it.hash] = [location.search, location.hash];
  try {
    await api.open();
    api.stayOpen(() => showBanner("The program can't be reached."), () => {});
    beginFigures();
  } catch (fault) {
    showBanner(...faultWords(fault));
  }
}

begin();
