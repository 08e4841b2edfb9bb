// A figure that answers: a small map on which walls are drawn, with steps that the program's answers make.

import { element, faultWords } from "./app.js";

const NS = "http://www.w3.org/2000/svg";
const CELL = 40;
const MOVES = { ArrowUp: [0, -1], ArrowRight: [1, 0], ArrowDown: [0, 1], ArrowLeft: [-1, 0] };
const RULES = { none: "no corner cut", one: "past one blocked cell", both: "past two" };

export function svg(name, attributes = {}, ...children) {
  const made = document.createElementNS(NS, name);
  for (const [key, value] of Object.entries(attributes)) made.setAttribute(key, value);
  made.append(...children);
  return made;
}

const middle = ({ x, y }) => [(x + 0.5) * CELL, (y + 0.5) * CELL];

/** A line between the middles of two cells; with a head where it is an arrow. */
function line({ from, to, kind, isArrow }) {
  const [[ax, ay], [bx, by]] = [middle(from), middle(to)];
  const length = Math.hypot(bx - ax, by - ay) || 1, [ux, uy] = [(bx - ax) / length, (by - ay) / length];
  const [ex, ey] = isArrow ? [bx - ux * 9, by - uy * 9] : [bx, by];
  const head = isArrow ? `M${ex - ux * 7 - uy * 5} ${ey - uy * 7 + ux * 5}L${ex} ${ey}L${ex - ux * 7 + uy * 5} ${ey - uy * 7 - ux * 5}` : "";
  return svg("path", { d: `M${ax} ${ay}L${ex} ${ey}${head}`, class: `line ${kind}` });
}

function letters(cell, words, kind) {
  const [x, y] = middle(cell);
  const made = svg("text", { x, y: y + 6, "text-anchor": "middle", class: `letters ${kind || ""}` });
  made.textContent = words;
  return made;
}

/** A colour of cells and what it means, for the caption. */
function keyOf([kind, words]) {
  const rect = (name) => svg("rect", { width: 16, height: 16, class: name });
  return element("span", { className: "key" }, svg("svg", { viewBox: "0 0 16 16", "aria-hidden": "true" }, rect("cell"), rect(`on ${kind}`)), words);
}

/**
 * `box` is the figure's element; `rows` its map, `fixed` says which cells are no place for a wall, `key` what the colours
 * mean, and `steps` makes the steps: each has its words, and cells, lines and letters to be drawn.
 */
export class Figure {
  constructor(box, { rows, rule = "none", choices = [], key, fixed, steps }) {
    Object.assign(this, { box, rows: [...rows], first: [...rows], rule, fixed, make: steps, at: 0, steps: [], cursor: null, asked: 0 });
    this.chosen = choices[0]?.[0];
    this.picture = svg("svg", { viewBox: `0 0 ${rows[0].length * CELL} ${rows.length * CELL}`, tabindex: 0, role: "application" });
    const caption = box.querySelector("figcaption");
    this.picture.setAttribute("aria-label", `${caption.textContent}: arrows move a cell, Enter draws or takes a wall`);
    caption.append(...key.map(keyOf));
    this.words = element("p", { className: "step" });
    this.words.setAttribute("aria-live", "polite");
    this.back = element("button", { type: "button", onclick: () => this.go(this.at - 1) }, "◀");
    this.on = element("button", { type: "button", onclick: () => this.go(this.at + 1) }, "▶");
    this.back.setAttribute("aria-label", "Step back");
    this.on.setAttribute("aria-label", "Step on");
    this.count = element("span", { className: "count" });
    const again = element("button", { type: "button", className: "quiet", onclick: () => this.reset() }, "Walls as at first");
    box.append(this.picture, element("div", { className: "row steps" }, this.back, this.on, this.count, again), this.words);
    if (choices.length) this.addChoice("choice", choices, (it) => (this.chosen = it));
    this.addChoice("corner rule", Object.entries(RULES).map(([it, words]) => [it, `${it}: ${words}`]), (it) => (this.rule = it));
    this.listen();
    this.again();
  }

  addChoice(what, names, take) {
    const name = `${this.box.id}-${what.replace(" ", "-")}`;
    const group = element("div", { className: "choice" }, ...names.map(([value, words], at) => element("label", {},
      element("input", { type: "radio", name, value, checked: at === 0, onchange: () => {
        take(value);
        this.at = 0;
        this.again();
      } }), element("span", {}, words))));
    group.setAttribute("role", "radiogroup");
    group.setAttribute("aria-label", what);
    if (what === "corner rule") group.prepend(element("span", {}, "Corner rule"));
    this.box.append(group);
  }

  // Walls

  listen() {
    let paints = null;
    const cellOf = ({ clientX, clientY }) => {
      const { a, e, f } = this.picture.getScreenCTM(); // on a low screen the picture is narrower than its box
      return { x: Math.floor((clientX - e) / a / CELL), y: Math.floor((clientY - f) / a / CELL) };
    };
    this.picture.addEventListener("pointerdown", (event) => {
      const cell = cellOf(event);
      if (event.button !== 0 || !this.isWall(cell)) return;
      this.picture.setPointerCapture(event.pointerId);
      paints = this.rows[cell.y][cell.x] === "@" ? "." : "@";
      this.put(cell, paints);
    });
    this.picture.addEventListener("pointermove", (event) => paints && this.put(cellOf(event), paints));
    for (const name of ["pointerup", "pointercancel"]) this.picture.addEventListener(name, () => (paints = null));
    this.picture.addEventListener("keydown", (event) => this.key(event));
  }

  key(event) {
    const move = MOVES[event.key];
    if (move) {
      const [x, y] = [this.cursor?.x ?? 0, this.cursor?.y ?? 0];
      const to = this.cursor ? { x: x + move[0], y: y + move[1] } : { x, y };
      if (this.rows[to.y]?.[to.x]) this.cursor = to;
      this.draw();
    } else if ((event.key === "Enter" || event.key === " ") && this.cursor && this.isWall(this.cursor)) {
      this.put(this.cursor, this.rows[this.cursor.y][this.cursor.x] === "@" ? "." : "@");
    } else return;
    event.preventDefault();
  }

  /** Whether a wall may stand there. */
  isWall({ x, y }) {
    return Boolean(this.rows[y]?.[x]) && !this.fixed(this).some((it) => it.x === x && it.y === y);
  }

  put({ x, y }, byte) {
    if (!this.isWall({ x, y }) || this.rows[y][x] === byte) return;
    this.rows[y] = this.rows[y].slice(0, x) + byte + this.rows[y].slice(x + 1);
    this.again();
  }

  reset() {
    this.rows = [...this.first];
    this.at = 0;
    this.again();
  }

  // Steps

  /** Asks the program anew; only the last of what was asked meanwhile is shown. */
  async again() {
    const asked = (this.asked += 1);
    this.draw();
    try {
      const steps = await this.make(this);
      if (asked !== this.asked) return;
      this.steps = steps;
    } catch (fault) {
      this.steps = [{ words: faultWords(fault).join(" ") }];
    }
    this.box.dataset.ready = String(asked);
    this.go(Math.min(this.at, this.steps.length - 1));
  }

  go(at) {
    this.at = Math.max(0, Math.min(this.steps.length - 1, at));
    this.back.disabled = this.at === 0;
    this.on.disabled = this.at === this.steps.length - 1;
    this.count.textContent = `${this.at + 1} of ${this.steps.length}`;
    this.words.textContent = this.steps[this.at]?.words ?? "";
    this.draw();
  }

  draw() {
    const step = this.steps[this.at] ?? {};
    const parts = [];
    this.rows.forEach((row, y) => [...row].forEach((byte, x) => {
      parts.push(svg("rect", { x: x * CELL, y: y * CELL, width: CELL, height: CELL, class: byte === "@" ? "cell wall" : "cell" }));
    }));
    for (const { x, y, kind } of step.cells || []) parts.push(svg("rect", { x: x * CELL, y: y * CELL, width: CELL, height: CELL, class: `on ${kind}` }));
    for (const it of step.lines || []) parts.push(line(it));
    for (const { cell, words, kind } of step.letters || []) parts.push(letters(cell, words, kind));
    if (this.cursor) {
      const { x, y } = this.cursor;
      parts.push(svg("rect", { x: x * CELL + 2, y: y * CELL + 2, width: CELL - 4, height: CELL - 4, class: "cursor" }));
    }
    this.picture.replaceChildren(...parts);
  }
}
