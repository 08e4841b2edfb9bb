// What the page asks of the program. There are two forms of it, and nothing else of the page knows which one
// it has: asked.js asks a server, inside.js a worker with the program's module.

export { Fault } from "./fault.js";

const isSite = document.documentElement.dataset.form === "site";
export const {
  cells, edit, make, maps, open, problems, query, run, savedMap, savedScript, scenText, small, stayOpen, take, walksText,
} = await import(isSite ? "./inside.js" : "./asked.js");

// An answer that nobody waits for any more, as something else was asked, is waited for so many milliseconds.
const PATIENCE = 700;

/** Asks one thing at a time; of what is asked meanwhile only the last is asked next. */
export class LastAsked {
  constructor(work) {
    this.work = work;
    this.next = null;
    this.control = null;
  }

  ask(what) {
    this.next = { what };
    if (!this.control) this.ended = this.loop();
    else this.clock ??= setTimeout(() => this.control?.abort(), Math.max(0, this.begun + PATIENCE - performance.now()));
    return this.ended;
  }

  async loop() {
    try {
      while (this.next) {
        const { what } = this.next;
        this.next = null;
        this.isDropped = false;
        this.control = new AbortController();
        this.begun = performance.now();
        await this.work(what, this.control.signal);
        clearTimeout(this.clock);
        this.clock = null;
      }
    } finally {
      this.control = null;
    }
  }

  stop() {
    this.next = null;
    this.control?.abort();
  }

  /** Gives up what is under way, as nobody wants to know any more: nothing is said of it. */
  drop() {
    this.isDropped = true;
    this.stop();
  }

  /** Whether something else was asked meanwhile, or nothing is to be said. */
  get isPast() {
    return this.next !== null || this.isDropped;
  }

  get isBusy() {
    return this.control !== null;
  }
}
