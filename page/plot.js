// A plot of taken states against length, as SVG: a mark for each row that has both.

import { decimal } from "./lines.js";

const NS = "http://www.w3.org/2000/svg";
const SIZE = { width: 360, height: 250, left: 46, right: 10, top: 10, bottom: 34 };
/** Forms as well as colours, so that the engines are told apart without colours. */
const FORMS = {
  plain: (r) => `m${-r} 0a${r} ${r} 0 1 0 ${2 * r} 0a${r} ${r} 0 1 0 ${-2 * r} 0`,
  jps: (r) => `m${-r} ${-r}h${2 * r}v${2 * r}h${-2 * r}z`,
  block: (r) => `m0 ${-1.3 * r}l${1.2 * r} ${2.1 * r}h${-2.4 * r}z`,
  plus: (r) => `m0 ${-1.4 * r}l${1.4 * r} ${1.4 * r}l${-1.4 * r} ${1.4 * r}l${-1.4 * r} ${-1.4 * r}z`,
};
// Of many marks each is small, so that it is seen where most of them are.
const MANY = 1500, FEW = 150;

function svg(name, attributes, ...children) {
  const made = document.createElementNS(NS, name);
  for (const [key, value] of Object.entries(attributes)) made.setAttribute(key, value);
  made.append(...children);
  return made;
}

/** A small picture of an engine's mark. */
export function markOf(engine) {
  return svg("svg", { viewBox: "0 0 12 12", width: 14, height: 14, "aria-hidden": "true" },
    svg("path", { d: `M6 6${FORMS[engine](3.6)}`, class: `mark ${engine}` }));
}

/** A step of 1, 2 or 5 times a power of ten, with at most six of them up to `most`. */
function niceStep(most) {
  const power = 10 ** Math.floor(Math.log10(most / 6 || 1));
  return power * ([1, 2, 5, 10].find((it) => (most / (power * it)) <= 6) || 10);
}

const powerWord = (power) => `${10 ** (power % 3)}${["", "k", "M"][Math.floor(power / 3)]}`;

function axes(mostLength, powers, x, y) {
  const group = svg("g", { class: "axes" });
  const step = niceStep(mostLength);
  for (let at = 0; at <= mostLength; at += step) {
    group.append(svg("path", { d: `M${x(at)} ${SIZE.top}V${SIZE.height - SIZE.bottom}`, class: "rule" }),
      svg("text", { x: x(at), y: SIZE.height - SIZE.bottom + 14, "text-anchor": "middle" }, String(Math.round(at * 100) / 100)));
  }
  for (let power = 0; power <= powers; power += 1) {
    group.append(svg("path", { d: `M${SIZE.left} ${y(10 ** power)}H${SIZE.width - SIZE.right}`, class: "rule" }),
      svg("text", { x: SIZE.left - 6, y: y(10 ** power) + 4, "text-anchor": "end" }, powerWord(power)));
  }
  group.append(svg("text", { x: (SIZE.left + SIZE.width - SIZE.right) / 2, y: SIZE.height - 4, "text-anchor": "middle" }, "length"),
    svg("text", { transform: `translate(10 ${(SIZE.top + SIZE.height - SIZE.bottom) / 2}) rotate(-90)`, "text-anchor": "middle" }, "taken states"));
  return group;
}

/** The plot of each engine's rows; `pick` is told the row that is nearest to a click. */
export function plot(series, pick) {
  const points = Object.entries(series).flatMap(([engine, rows]) => rows
    .filter((it) => it.taken !== undefined && it.straight !== undefined)
    .map((row) => ({ engine, row, length: Number(decimal(row.straight, row.diagonal)), taken: row.taken })));
  const mostLength = points.reduce((most, it) => Math.max(most, it.length), 1);
  const powers = Math.max(1, Math.ceil(Math.log10(points.reduce((most, it) => Math.max(most, it.taken), 1))));
  const x = (length) => SIZE.left + (length / mostLength) * (SIZE.width - SIZE.left - SIZE.right);
  const y = (taken) => SIZE.height - SIZE.bottom - (Math.log10(Math.max(1, taken)) / powers) * (SIZE.height - SIZE.top - SIZE.bottom);
  const picture = svg("svg", { viewBox: `0 0 ${SIZE.width} ${SIZE.height}`, role: "application", tabindex: 0,
    "aria-label": `Taken states against length, ${points.length} marks: the arrows go from mark to mark` },
  svg("title", {}, "Taken states against length"), axes(mostLength, powers, x, y));
  for (const engine of Object.keys(series)) {
    const form = FORMS[engine](points.length > MANY ? 1 : points.length > FEW ? 2.2 : 3.2);
    const d = points.filter((it) => it.engine === engine)
      .map((it) => `M${x(it.length).toFixed(1)} ${y(it.taken).toFixed(1)}${form}`).join("");
    picture.append(svg("path", { d, class: `mark ${engine}` }));
  }
  const ring = svg("circle", { r: 7, class: "ring", visibility: "hidden" });
  picture.append(ring);
  picture.addEventListener("click", (event) => {
    const at = new DOMPoint(event.clientX, event.clientY).matrixTransform(picture.getScreenCTM().inverse());
    const away = (it) => Math.hypot(x(it.length) - at.x, y(it.taken) - at.y);
    const nearest = points.reduce((best, it) => (!best || away(it) < away(best) ? it : best), null);
    if (nearest && away(nearest) < 25) pick(nearest.row.number, nearest.engine);
  });
  const inOrder = [...points].sort((one, other) => one.length - other.length);
  let chosen = -1;
  picture.addEventListener("keydown", (event) => {
    const by = { ArrowRight: 1, ArrowUp: 1, ArrowLeft: -1, ArrowDown: -1, Home: -Infinity, End: Infinity }[event.key];
    if (!by || !inOrder.length) return;
    event.preventDefault();
    chosen = Math.max(0, Math.min(inOrder.length - 1, chosen + by));
    pick(inOrder[chosen].row.number, inOrder[chosen].engine);
  });
  picture.showRow = (number) => {
    const point = points.find((it) => it.row.number === number);
    ring.setAttribute("visibility", point ? "visible" : "hidden");
    if (point) [["cx", x(point.length)], ["cy", y(point.taken)]].forEach(([key, value]) => ring.setAttribute(key, value));
  };
  return picture;
}
