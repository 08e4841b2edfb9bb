// jps as a function, in Node, in a page or in a worker, over jps.wasm, which lies beside it:
//
//     import { answer } from "./jps.mjs";
//     const { status, out, err } = await answer(["query", "m", "1", "1", "23", "23"], { m: map });
//
// The words are those of the command line, the files are all that there are, as bytes or text by their names, and the
// input is what `live` and `serve` read. `out` and `err` are bytes: those that the program prints. As a command,
// `node jps.mjs` and the same words, it prints what ./jps prints; by these two it answers once its input has ended.

// The sum of the jps.wasm that belongs to this file (SHA-256): tools/ship writes it.
const SUM = "d6daab6584cfbcf41da730e663f4501556908a38b6d37b4b87b7bc73228eb80e";

const IN_NODE = typeof process === "object" && Boolean(process.versions?.node);

// Room for what is printed, in bytes: where it is too small, the module says how much it takes.
const ROOMS = [2 ** 20, 2 ** 12];

const bytesOf = (text) => (typeof text === "string" ? new TextEncoder().encode(text) : text);
const OUT_OF_MEMORY = { status: 6, out: new Uint8Array(), err: bytesOf("jps: memory\n") };

// Whether there are 64-bit memories here, as in a module of nothing else: Node 20 and 22 have them behind a flag.
async function isWide() {
  const wide = new Uint8Array([0, 97, 115, 109, 1, 0, 0, 0, 5, 3, 1, 4, 1]);
  if (WebAssembly.validate(wide)) return true;
  if (!IN_NODE) return false;
  (await import("node:v8")).setFlagsFromString("--experimental-wasm-memory64");
  return WebAssembly.validate(wide);
}

async function fetched(url) {
  if (IN_NODE) return new Uint8Array((await import("node:fs")).readFileSync(url));
  const told = await fetch(url);
  if (!told.ok) throw new Error(`jps.wasm was not found: status ${told.status}`);
  return new Uint8Array(await told.arrayBuffer());
}

// Refuses bytes that are not those of jps.wasm. (A page that came by plain http from another machine has no sums.)
async function check(bytes) {
  if (!SUM || !globalThis.crypto?.subtle) return;
  const sum = new Uint8Array(await crypto.subtle.digest("SHA-256", bytes));
  const told = Array.from(sum, (it) => it.toString(16).padStart(2, "0")).join("");
  if (told !== SUM) throw new Error("jps.wasm is damaged, or of another version: its sum is not the one in jps.mjs");
}

// The module of these bytes.
async function compiled(bytes) {
  if (!(await isWide()))
    throw new Error("jps needs WebAssembly with a 64-bit memory: Chrome or Edge 133, Firefox 134, Node 20, or later");
  await check(bytes);
  return WebAssembly.compile(bytes);
}

let ready; // the module, once it is asked for
let instance; // what answers: a new one where a call broke off

// Keeps what is on its way, unless it fails: then the next call tries again.
function keep(coming) {
  coming.catch(() => {
    if (ready === coming) ready = undefined;
  });
  return (ready = coming);
}

/** Takes the bytes of jps.wasm, where these are at hand. Else they are read from beside this file. */
export const load = (bytes) => keep(compiled(bytes));
const found = () => ready ?? keep(fetched(new URL("jps.wasm", import.meta.url)).then(compiled));

// The names of the files that a call may read: of `tables=NAME`, and the first words behind the command; three at most.
function namesOf(words, has) {
  const tables = words.filter((it) => it.startsWith("tables=")).map((it) => it.slice("tables=".length));
  return [...new Set([...tables, ...words.slice(1, 4)])].filter(has).slice(0, 3);
}

const bytesAt = (at, count) => new Uint8Array(instance.exports.memory.buffer, Number(at), count);

// Room in the module's memory: where it lies, and how many bytes it has.
function room(count) {
  const at = instance.exports.jps_room(BigInt(count));
  if (at === 0n) throw OUT_OF_MEMORY;
  return [at, BigInt(count)];
}

function put(bytes) {
  const [at, count] = room(bytes.length);
  bytesAt(at, bytes.length).set(bytes);
  return [at, count];
}

// One call, with this much room for what is printed.
function call(words, names, texts, input, rooms) {
  instance.exports.jps_reset();
  const [said, named] = [words, names].map((them) => them.map((it) => `${it}\0`).join(""));
  const given = [said, named, texts[0] ?? "", texts[1] ?? "", texts[2] ?? "", input];
  const handed = given.flatMap((it) => put(bytesOf(it)));
  const [out, err, told] = [...rooms, 16].map(room);
  const status = instance.exports.jps_answer(...handed, ...out, ...err, told[0]);
  const needed = [...new BigUint64Array(instance.exports.memory.buffer, Number(told[0]), 2)].map(Number);
  if (needed.some((it, k) => it > rooms[k])) return call(words, names, texts, input, needed);
  return { status, out: bytesAt(out[0], needed[0]).slice(), err: bytesAt(err[0], needed[1]).slice() };
}

/** What the program answers to these words: its status, and what it prints. */
export async function answer(words, files = {}, input = "") {
  if (words.some((it) => it.includes("\0"))) throw new TypeError("jps: a word has a byte 0 in it");
  const module = await found();
  instance ??= new WebAssembly.Instance(module);
  const names = namesOf(words, (it) => Object.hasOwn(files, it) && files[it] !== undefined);
  try {
    return call(words, names, names.map((it) => files[it]), input, ROOMS);
  } catch (fault) {
    if (fault === OUT_OF_MEMORY) return { ...OUT_OF_MEMORY };
    instance = undefined;
    throw fault;
  }
}

// Writes all of the bytes, and tells whether that went well.
function write(fs, stream, bytes) {
  for (let at = 0; at < bytes.length; ) {
    try {
      at += fs.writeSync(stream, bytes, at);
    } catch (fault) {
      if (fault.code !== "EAGAIN") return false;
    }
  }
  return true;
}

// The bytes of a regular file or, under the name 0, of the input; or nothing. (What Node does not read at once, as it
// has 2 GiB or more, is want of memory: the module would need several times that.)
function read(fs, name) {
  try {
    return name === 0 || fs.statSync(name).isFile() ? fs.readFileSync(name) : undefined;
  } catch (fault) {
    if (fault.code === "ERR_FS_FILE_TOO_LARGE") throw OUT_OF_MEMORY;
    return undefined;
  }
}

// The answer to a command line.
async function answered(fs, words) {
  const files = Object.create(null);
  try {
    namesOf(words, (name) => (files[name] = read(fs, name)));
    const input = ["live", "serve"].includes(words[0]) ? read(fs, 0) : "";
    const told = await answer(words, files, input);
    return told.status === 0 && input === undefined ? { ...told, status: 4, err: bytesOf("jps: read\n") } : told;
  } catch (fault) {
    if (fault === OUT_OF_MEMORY) return fault;
    throw fault;
  }
}

// The command line.
async function main(fs, words) {
  let { status, out, err } = await answered(fs, words);
  if (!write(fs, 1, out)) [status, err] = [5, bytesOf("jps: write\n")];
  write(fs, 2, err);
  process.exitCode = status;
}

if (IN_NODE) {
  const [fs, { pathToFileURL }] = [await import("node:fs"), await import("node:url")];
  const asked = process.argv[1] ?? "";
  if (fs.existsSync(asked) && import.meta.url === pathToFileURL(fs.realpathSync(asked)).href)
    await main(fs, process.argv.slice(2)).catch((fault) => {
      process.stderr.write(`jps.mjs: ${fault.message}\n`);
      process.exitCode = 126;
    });
}
