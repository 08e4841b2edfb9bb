// Maps as bytes: what is read here is only what the page draws. What is wrong with a map the program alone
// says.

const MOST_SIDE = 4096;
const GROUNDS = new Set([..." .GS@OTW".slice(1)].map((it) => it.charCodeAt(0)));
const LINE_FEED = 10, RETURN = 13;
// What an edit makes of a cell's byte, and which bytes are of that ground already.
const MADE = { free: [".", ".GS"], flood: ["W", "W"], block: ["@", "@OT"] };
const text = new TextDecoder();

/** The number of a line such as `height 49`, or NaN. */
function side(line, name) {
  const fields = line.trim().split(/[ \t]+/);
  const number = fields.length === 2 && fields[0] === name && /^\d{1,9}$/.test(fields[1]) ? Number(fields[1]) : NaN;
  return number >= 1 && number <= MOST_SIDE ? number : NaN;
}

/** Where each of the first lines ends, and so where the next one begins. */
function lineEnds(bytes, count) {
  const ends = [];
  for (let at = 0; at < bytes.length && ends.length < count; at += 1) if (bytes[at] === LINE_FEED) ends.push(at);
  return ends;
}

/** The sides and the cells of a map's text, or null where the program has to say what is wrong with it. */
export function readMap(bytes) {
  const ends = lineEnds(bytes, 4);
  if (ends.length < 4) return null;
  const head = text.decode(bytes.subarray(0, ends[3])).split("\n").map((it) => it.replace(/\r$/, ""));
  const [height, width] = [side(head[1], "height"), side(head[2], "width")];
  if (head[0].trim().split(/[ \t]+/).join(" ") !== "type octile" || head[3].trim() !== "map" || !(height && width)) return null;
  const cells = new Uint8Array(width * height);
  let at = ends[3] + 1;
  for (let row = 0; row < height; row += 1) {
    if (at + width > bytes.length) return null;
    cells.set(bytes.subarray(at, at + width), row * width);
    at += width;
    if (bytes[at] === RETURN) at += 1;
    if (at < bytes.length && bytes[at] !== LINE_FEED) return null;
    at += 1;
  }
  for (; at < bytes.length; at += 1) if (bytes[at] !== LINE_FEED && bytes[at] !== RETURN) return null;
  return cells.every((it) => GROUNDS.has(it)) ? { width, height, cells } : null;
}

/** A map as a file. */
export function mapText({ width, height, cells }) {
  const head = new TextEncoder().encode(`type octile\nheight ${height}\nwidth ${width}\nmap\n`);
  const bytes = new Uint8Array(head.length + (width + 1) * height).fill(LINE_FEED);
  bytes.set(head);
  for (let row = 0; row < height; row += 1) {
    bytes.set(cells.subarray(row * width, (row + 1) * width), head.length + row * (width + 1));
  }
  return bytes;
}

/** Makes a cell of the ground that an edit asks for; `byte` picks one of the bytes of that ground. */
export function editMap({ width, cells }, verb, x, y, byte) {
  const [made, same] = MADE[verb];
  const place = y * width + x;
  if (byte !== undefined && same.includes(String.fromCharCode(byte))) cells[place] = byte;
  else if (!same.includes(String.fromCharCode(cells[place]))) cells[place] = made.charCodeAt(0);
}

// A small map in a link: its sides and, packed, two bits for each cell.

const MOST_PACKED = 64;
const LETTERS = ".@WT"; // swamp is land in a link
const CODES = { ".": 0, G: 0, S: 0, "@": 1, O: 1, W: 2, T: 3 };

export const isSmall = ({ width, height }) => width <= MOST_PACKED && height <= MOST_PACKED;

/** The map as a part of a link. */
export function packed({ width, height, cells }) {
  const bytes = new Uint8Array(Math.ceil(cells.length / 4));
  cells.forEach((byte, at) => (bytes[at >> 2] |= CODES[String.fromCharCode(byte)] << (2 * (at & 3))));
  const letters = btoa(String.fromCharCode(...bytes)).replaceAll("+", "-").replaceAll("/", "_").replace(/=+$/, "");
  return `${width}x${height}.${letters}`;
}

/** The map of such a part, or null where it is none. */
export function unpacked(told) {
  const [, width, height, letters] = told.match(/^(\d{1,2})x(\d{1,2})\.([\w-]+)$/) || [];
  const map = { width: Number(width), height: Number(height) };
  if (!map.width || !map.height || !isSmall(map)) return null;
  let bytes;
  try {
    bytes = atob(letters.replaceAll("-", "+").replaceAll("_", "/"));
  } catch {
    return null;
  }
  if (bytes.length !== Math.ceil((map.width * map.height) / 4)) return null;
  map.cells = Uint8Array.from({ length: map.width * map.height }, (_, at) => (
    LETTERS.charCodeAt((bytes.charCodeAt(at >> 2) >> (2 * (at & 3))) & 3)));
  return map;
}
