// Moves, pruning and jumps by their definitions (docs/RULES.md): for what the page counts and explains. No
// path is found by it: it reads the states that the program took.

import { DIRECTIONS } from "./lines.js";

export const STEPS = [[0, -1], [1, -1], [1, 0], [1, 1], [0, 1], [-1, 1], [-1, 0], [-1, -1]];
const MOST_BLOCKED = { none: 0, one: 1, both: 2 };
const BLOCK = 512;
const LAND = new Set([..."." + "GS"].map((it) => it.charCodeAt(0)));
const WATER = "W".charCodeAt(0);

export const isDiagonal = (d) => d % 2 === 1;
const turned = (d, by) => (d + by + 8) % 8;
export const cellAfter = ({ x, y }, d, count = 1) => ({ x: x + STEPS[d][0] * count, y: y + STEPS[d][1] * count });
export const estimateOf = (from, to) => {
  const [dx, dy] = [Math.abs(from.x - to.x), Math.abs(from.y - to.y)];
  return [Math.abs(dx - dy), Math.min(dx, dy)];
};

/** The grid of a query: the cells of its start's layer, under a corner rule. */
export class Rules {
  constructor(map, rule, start, goal = null) {
    Object.assign(this, { map, rule, goal, most: MOST_BLOCKED[rule] });
    this.isWater = map.cells[start.y * map.width + start.x] === WATER;
  }

  isFree({ x, y }) {
    const { width, height, cells } = this.map;
    if (x < 0 || y < 0 || x >= width || y >= height) return false;
    const byte = cells[y * width + x];
    return this.isWater ? byte === WATER : LAND.has(byte);
  }

  isLegal(cell, d) {
    if (!this.isFree(cellAfter(cell, d))) return false;
    if (!isDiagonal(d)) return true;
    const beside = [turned(d, -1), turned(d, 1)].filter((it) => !this.isFree(cellAfter(cell, it)));
    return beside.length <= this.most;
  }

  /** The walls that force a turn at a cell after an arrival: each with the directions that it forces. */
  forced(cell, arrival) {
    const found = [];
    const add = (wall, directions) => {
      const legal = directions.filter((it) => this.isLegal(cell, it));
      if (!this.isFree(wall) && legal.length) found.push({ wall, directions: legal });
    };
    for (const side of [-1, 1]) {
      if (!isDiagonal(arrival)) {
        const aside = cellAfter(cell, turned(arrival, 2 * side));
        if (this.rule === "none") add(cellAfter(aside, turned(arrival, 4)), [turned(arrival, 2 * side), turned(arrival, side)]);
        else add(aside, [turned(arrival, side)]);
      } else if (this.rule !== "none") {
        // Behind the cell in one component: forced is the diagonal back in that one and on in the other.
        add(cellAfter(cell, turned(arrival, side + 4)), [turned(arrival, -2 * side)]);
      }
    }
    return found;
  }

  /** In which directions a search goes on; `arrival` is 8 at the start. */
  allowed(cell, arrival) {
    const natural = arrival > 7 ? [0, 1, 2, 3, 4, 5, 6, 7]
      : isDiagonal(arrival) ? [arrival, turned(arrival, -1), turned(arrival, 1)] : [arrival];
    const all = new Set(natural.filter((it) => this.isLegal(cell, it)));
    if (arrival < 8) for (const { directions } of this.forced(cell, arrival)) directions.forEach((it) => all.add(it));
    return [...all].sort((one, other) => one - other);
  }

  isGoal({ x, y }) {
    return this.goal !== null && this.goal.x === x && this.goal.y === y;
  }

  /** Why a cell ends a straight run: the goal, or the wall of a forced neighbour. */
  straightStop(cell, d) {
    if (this.isGoal(cell)) return { why: "goal" };
    const [first] = this.forced(cell, d);
    return first ? { why: "forced", wall: first.wall, to: cellAfter(cell, first.directions[0]) } : null;
  }

  /** A straight run: how many moves it is looked along, and why it stops, if it does. */
  straight(from, d) {
    let cell = from, count = 0;
    while (this.isLegal(cell, d)) {
      cell = cellAfter(cell, d);
      count += 1;
      const stop = this.straightStop(cell, d);
      if (stop) return { count, stop, cell };
    }
    return { count, stop: null, cell };
  }

  /** One jump: its run, the looks aside of a diagonal one, and where and why it stops, if it does. */
  jump(from, d) {
    if (!isDiagonal(d)) return { d, looks: [], ...this.straight(from, d) };
    let cell = from, count = 0;
    const looks = [];
    while (this.isLegal(cell, d)) {
      cell = cellAfter(cell, d);
      count += 1;
      let stop = this.isGoal(cell) ? { why: "goal" } : null;
      const [first] = this.forced(cell, d);
      if (!stop && first) stop = { why: "forced", wall: first.wall, to: cellAfter(cell, first.directions[0]) };
      for (const side of [-1, 1]) {
        if (stop) break;
        const way = turned(d, side), look = this.straight(cell, way);
        looks.push({ from: cell, d: way, ...look });
        if (look.stop) stop = { why: "aside", d: way, at: look.cell, then: look.stop };
      }
      if (stop) return { d, count, looks, stop, cell };
    }
    return { d, count, looks, stop: null, cell };
  }
}

/** How many blocks of 512 cells a straight run lies in. */
function blocksOf({ from, d, count }) {
  const at = d % 4 === 2 ? from.x : from.y, end = at + (STEPS[d][0] + STEPS[d][1]) * count;
  return Math.abs(Math.floor(end / BLOCK) - Math.floor(at / BLOCK)) + 1;
}

const value = ([straight, diagonal]) => straight + diagonal * Math.SQRT2;

/**
 * What a run did, state by state: its cost, its parent, why the jump to it stopped, and what was looked at. The taken
 * states are the program's; what they offer follows from the map.
 */
export class Replay {
  constructor(rules, answer, most = Infinity) {
    Object.assign(this, { rules, states: answer.states, isJumps: answer.words.engine !== "plain", byCell: answer.words.states === "cell" });
    this.nodes = [];
    this.offers = new Map();
    this.looked = { x: [], y: [], ends: [] };
    this.counts = { cells: 0, blocks: 0, entries: 0 };
    this.seen = new Uint8Array(rules.map.width * rules.map.height);
    this.isWhole = true;
    for (let at = 0; at < this.states.count; at += 1) {
      if (this.counts.cells > most) {
        this.isWhole = false;
        break;
      }
      this.take(at);
    }
  }

  key({ x, y }, arrival) {
    const cell = y * this.rules.map.width + x;
    return this.byCell || !this.isJumps ? cell : cell * 9 + arrival;
  }

  take(at) {
    const cell = { x: this.states.x[at], y: this.states.y[at] }, arrival = this.states.arrival[at];
    const offered = this.offers.get(this.key(cell, arrival));
    const node = { at, cell, arrival, cost: at ? offered?.cost : [0, 0], parent: at ? offered?.parent : null };
    Object.assign(node, { jump: offered?.jump, offers: [], equals: [] });
    this.nodes.push(node);
    if (node.cost && !this.rules.isGoal(cell)) {
      const ways = this.isJumps ? this.rules.allowed(cell, arrival) : [0, 1, 2, 3, 4, 5, 6, 7];
      for (const d of ways) this.offer(node, d);
    }
    this.looked.ends.push(this.looked.x.length);
  }

  offer(node, d) {
    const { rules } = this;
    if (!this.isJumps) {
      this.look(cellAfter(node.cell, d));
      if (rules.isLegal(node.cell, d)) this.add(node, d, { d, count: 1, looks: [], stop: { why: "move" }, cell: cellAfter(node.cell, d) });
      return;
    }
    const jump = rules.jump(node.cell, d);
    this.counts.entries += 1;
    this.lookAlong(node.cell, d, jump.count);
    if (!isDiagonal(d)) this.counts.blocks += blocksOf({ from: node.cell, d, count: jump.count });
    for (const look of jump.looks) {
      this.lookAlong(look.from, look.d, look.count);
      this.counts.blocks += blocksOf(look);
    }
    node.offers.push(jump);
    if (jump.stop) this.add(node, d, jump);
  }

  add(node, d, jump) {
    const cost = [node.cost[0] + (isDiagonal(d) ? 0 : jump.count), node.cost[1] + (isDiagonal(d) ? jump.count : 0)];
    const key = this.key(jump.cell, d), before = this.offers.get(key);
    if (before && cost.join() === before.cost.join()) node.equals.push(jump);
    if (!before || value(cost) < value(before.cost) - 1e-9) this.offers.set(key, { cost, parent: node, jump });
  }

  lookAlong(from, d, count) {
    for (let move = 1; move <= count; move += 1) this.look(cellAfter(from, d, move));
  }

  look({ x, y }) {
    const { width, height } = this.rules.map;
    if (x < 0 || y < 0 || x >= width || y >= height) return;
    this.counts.cells += 1;
    const place = y * width + x;
    if (this.seen[place]) return;
    this.seen[place] = 1;
    this.looked.x.push(x);
    this.looked.y.push(y);
  }

  /** The least cost at which the run took the goal, to be compared with what the program printed. */
  get goalCost() {
    return this.nodes.find(({ cell }) => this.rules.isGoal(cell))?.cost;
  }
}

const costWords = ([straight, diagonal]) => `${straight} + ${diagonal}·√2`;
const cellWords = ({ x, y }) => `${x},${y}`;

/** Why a jump stopped, in words. */
export function stopWords(stop) {
  if (stop.why === "goal") return "the goal";
  if (stop.why === "forced") return `${cellWords(stop.to)} is a forced neighbour, by the wall at ${cellWords(stop.wall)}`;
  const then = stop.then.why === "goal" ? "the goal" : "a jump point";
  return `its look ${DIRECTIONS[stop.d]} meets ${then} at ${cellWords(stop.at)}`;
}

/** What is known of a taken state, in lines. */
export function nodeWords(node, goal) {
  if (!node.cost) return [];
  const lines = [`taken ${node.at + 1}. · so far ${costWords(node.cost)} · estimate ${costWords(estimateOf(node.cell, goal))}`];
  if (node.jump && node.jump.stop.why !== "move") lines.push(`jumped ${DIRECTIONS[node.jump.d]}, stopped here: ${stopWords(node.jump.stop)}`);
  return lines;
}
