// Times of the program as a WebAssembly module, for elsewhere.py. In a page it is imported; as a command it
// prints them:
//
//     node module_times.mjs JPS.MJS MAP WHOLE FIRST WORD..

/** The seconds of `scen` with all entries and with the first one alone, once the module has worked on all of them. */
export async function timesOf(answer, map, whole, first, words) {
  const files = { map, whole, first };
  const call = async (name) => {
    const begun = performance.now();
    const { status } = await answer(["scen", "map", name, ...words], files);
    if (status > 1) throw new Error(`scen ended with ${status}`);
    return (performance.now() - begun) / 1000;
  };
  await call("whole");
  return { whole: await call("whole"), first: await call("first") };
}

/** The same of files that are fetched. */
export async function timesIn(module, map, whole, first, words) {
  const { answer } = await import(module);
  const texts = [map, whole, first].map(async (it) => new Uint8Array(await (await fetch(it)).arrayBuffer()));
  return timesOf(answer, ...(await Promise.all(texts)), words);
}

if (typeof process === "object") {
  const { readFileSync } = await import("node:fs");
  const [module, map, whole, first, ...words] = process.argv.slice(2);
  const { answer } = await import(module);
  const texts = [map, whole, first].map((it) => readFileSync(it));
  console.log(JSON.stringify(await timesOf(answer, ...texts, words)));
}
