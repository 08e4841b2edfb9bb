// What goes wrong between the page and the program.

/** A fault: the program's own line, or why nothing was answered. */
export class Fault extends Error {
  constructor(line, status, kind = "program") {
    super(line);
    this.status = status;
    this.kind = kind; // "program": its own line; "much": more than a page takes; "page": the page's or the server's words
  }
}
