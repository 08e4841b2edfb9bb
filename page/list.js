// A long list of which only the rows that are seen are made.

import { element } from "./app.js";

const ROW = matchMedia("(pointer: coarse)").matches ? 44 : 30;

export class List {
  /** `draw` fills the element of an item, `pick` is told which one was chosen. */
  constructor(box, draw, pick) {
    Object.assign(this, { box, draw, pick, items: [], chosen: -1 });
    this.inner = element("div", { className: "inner" });
    box.append(this.inner);
    box.addEventListener("scroll", () => this.show());
    box.addEventListener("keydown", (event) => this.key(event));
    new ResizeObserver(() => this.show()).observe(box);
  }

  take(items) {
    this.items = items;
    this.chosen = -1;
    this.inner.style.height = `${items.length * ROW}px`;
    this.box.scrollTop = 0;
    this.show();
  }

  show() {
    const first = Math.max(0, Math.floor(this.box.scrollTop / ROW) - 4);
    const last = Math.min(this.items.length, Math.ceil((this.box.scrollTop + this.box.clientHeight) / ROW) + 4);
    const rows = [];
    for (let at = first; at < last; at += 1) {
      const row = element("div", { className: "item", role: "option", id: `${this.box.id}-${at}`, onclick: () => this.choose(at) });
      row.setAttribute("aria-selected", String(at === this.chosen));
      row.setAttribute("aria-setsize", String(this.items.length));
      row.setAttribute("aria-posinset", String(at + 1));
      row.style.top = `${at * ROW}px`;
      this.draw(row, this.items[at]);
      rows.push(row);
    }
    this.inner.replaceChildren(...rows);
  }

  choose(at) {
    if (!this.items.length) return;
    this.chosen = Math.max(0, Math.min(this.items.length - 1, at));
    const top = this.chosen * ROW;
    if (top < this.box.scrollTop) this.box.scrollTop = top;
    if (top + ROW > this.box.scrollTop + this.box.clientHeight) this.box.scrollTop = top + ROW - this.box.clientHeight;
    this.show();
    this.box.setAttribute("aria-activedescendant", `${this.box.id}-${this.chosen}`);
    this.pick(this.items[this.chosen]);
  }

  /** Chooses an item by what it is. */
  chooseItem(item) {
    this.choose(this.items.indexOf(item));
  }

  key(event) {
    const page = Math.floor(this.box.clientHeight / ROW);
    const by = { ArrowDown: 1, ArrowUp: -1, PageDown: page, PageUp: -page, Home: -Infinity, End: Infinity }[event.key];
    if (by === undefined && event.key !== "Enter") return;
    event.preventDefault();
    this.choose(event.key === "Enter" ? this.chosen : Math.max(-1, Math.min(this.items.length, this.chosen + by)));
  }
}

/** Buttons that pick which items are listed; `kinds` are a name and a count each. */
export function chips(box, kinds, chosen, pick) {
  box.replaceChildren(...kinds.map(([name, count]) => {
    const chip = element("button", { type: "button", className: `chip ${name}`, onclick: () => pick(name) }, `${name} ${count.toLocaleString("en")}`);
    chip.setAttribute("aria-pressed", String(name === chosen));
    return chip;
  }));
}
