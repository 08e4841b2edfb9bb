// The program's module in a thread of its own: one call at a time, its files in memory.

import { answer } from "./jps.mjs";

const files = {}; // what it was told before, so that a map is sent once
onmessage = async ({ data: { words, sent, input } }) => {
  Object.assign(files, sent);
  const begun = performance.now();
  try {
    const { status, out, err } = await answer(words, files, input);
    postMessage({ status, out, err, seconds: (performance.now() - begun) / 1000 });
  } catch (fault) {
    postMessage({ broken: String(fault) });
  }
};
