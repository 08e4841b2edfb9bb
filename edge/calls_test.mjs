// Calls the module again and again in one instance: its memory has to stay as large as one call of each kind made it.
//
//     node calls_test.mjs JPS.MJS CALLS SIDE [ENGINE..]     CALLS queries on SIDE by SIDE open cells, by these engines in
//                                                           turn, or by those that a session has
import { pathToFileURL } from "node:url";

const [script, calls, side, ...asked] = process.argv.slice(2);
const engines = asked.length ? asked : ["plain", "block", "jps", "plus"];

// What jps.mjs makes an instance by, which it keeps to itself.
const made = [];
WebAssembly.Instance = new Proxy(WebAssembly.Instance, {
  construct(target, words) {
    made.push(new target(...words));
    return made.at(-1);
  },
});
const { answer } = await import(pathToFileURL(script));

const rows = `${".".repeat(side)}\n`.repeat(side);
const map = new TextEncoder().encode(`type octile\nheight ${side}\nwidth ${side}\nmap\n${rows}`);
const end = String(side - 1);
const mebibytes = () => made.map((it) => it.exports.memory.buffer.byteLength / 2 ** 20);

let first;
for (let turn = 0; turn < calls; turn++) {
  const engine = engines[turn % engines.length];
  const { status, out } = await answer(["query", "m", "0", "0", end, end, `engine=${engine}`], { m: map });
  const told = new TextDecoder().decode(out);
  if (status !== 0 || told !== `walk 0 ${end} 0,0 ${end},${end}\n`) throw new Error(`status ${status}: ${told}`);
  if (turn + 1 === engines.length) first = mebibytes();
}
const last = mebibytes();
console.log(`module: ${first} MiB behind one call by each engine, ${last} behind ${calls}`);
process.exitCode = first.length === 1 && String(first) === String(last) ? 0 : 1;
