// Mouse, pen, fingers and wheel on a view: moves and zooms the map, drags the ends, paints, clicks.

const NEAR = 4;

/** `host` says what there is at a place, and is told what was done. */
export class Pointer {
  constructor(view, host) {
    Object.assign(this, { view, host, fingers: new Map(), mode: null });
    const { canvas } = view;
    canvas.addEventListener("pointerdown", (event) => this.down(event));
    canvas.addEventListener("pointermove", (event) => this.move(event));
    canvas.addEventListener("pointerup", (event) => this.up(event));
    canvas.addEventListener("pointercancel", (event) => this.up(event));
    canvas.addEventListener("pointerleave", () => host.hover(null, view));
    canvas.addEventListener("wheel", (event) => this.wheel(event), { passive: false });
    canvas.addEventListener("contextmenu", (event) => this.mode && event.preventDefault());
  }

  at(event) {
    const box = this.view.canvas.getBoundingClientRect();
    return [event.clientX - box.left, event.clientY - box.top];
  }

  cell(event) {
    const [x, y] = this.view.point(...this.at(event));
    return { x: Math.floor(x), y: Math.floor(y) };
  }

  down(event) {
    this.view.canvas.setPointerCapture(event.pointerId);
    this.fingers.set(event.pointerId, this.at(event));
    this.first = this.at(event);
    if (this.fingers.size === 2) {
      if (this.mode === "paint") this.host.strokeEnd();
      this.mode = "pinch";
      this.span = this.measure();
      return;
    }
    const end = event.button === 0 ? this.host.endAt(...this.first, this.view) : null;
    if (end) [this.mode, this.end] = ["end", end];
    else if (event.button === 0 && this.host.isPainting()) {
      this.mode = "paint";
      this.host.strokeBegin(this.cell(event));
    } else this.mode = event.button === 0 ? "click" : "pan";
  }

  /** Middle and distance of two fingers. */
  measure() {
    const [[ax, ay], [bx, by]] = [...this.fingers.values()];
    return { x: (ax + bx) / 2, y: (ay + by) / 2, length: Math.hypot(ax - bx, ay - by) };
  }

  move(event) {
    const before = this.fingers.get(event.pointerId);
    this.host.hover(this.cell(event), this.view, this.mode);
    if (!before) return;
    const now = this.at(event);
    this.fingers.set(event.pointerId, now);
    if (this.mode === "pinch") return this.pinch();
    if (this.mode === "end") return this.host.dragEnd(this.end, this.cell(event));
    if (this.mode === "paint") {
      const between = event.getCoalescedEvents?.() || [event];
      for (const it of between.length ? between : [event]) this.host.strokeTo(this.cell(it));
      return undefined;
    }
    if (this.mode === "click" && Math.hypot(now[0] - this.first[0], now[1] - this.first[1]) > NEAR) this.mode = "pan";
    if (this.mode === "pan") this.host.pan(now[0] - before[0], now[1] - before[1]);
    return undefined;
  }

  pinch() {
    const before = this.span;
    this.span = this.measure();
    this.host.pan(this.span.x - before.x, this.span.y - before.y);
    this.host.zoom(this.span.length / (before.length || 1), this.span.x, this.span.y, this.view);
  }

  up(event) {
    if (!this.fingers.delete(event.pointerId)) return;
    const { mode } = this;
    if (mode === "pinch" && this.fingers.size > 0) return;
    this.mode = null;
    if (mode === "end") this.host.dropEnd(this.end);
    if (mode === "paint") this.host.strokeEnd();
    if (mode === "click" && event.type === "pointerup") this.host.click(this.cell(event), event.shiftKey);
  }

  wheel(event) {
    event.preventDefault();
    const lines = event.deltaMode === 1 ? 24 : 1;
    this.host.zoom(Math.exp(-event.deltaY * lines * (event.ctrlKey ? 0.01 : 0.0016)), ...this.at(event), this.view);
  }
}
