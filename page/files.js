// Files that are dropped or picked, the maps of a site, and what asks before edits are lost.

import * as api from "./api.js";
import { byId, changeMap, during, element, faultWords, showBanner, state, tell } from "./app.js";
import { isSmall } from "./grid.js";

const text = new TextDecoder();
let takeMap = null; // what main.js does with a map that the program was handed
let opened = null; // a promise: until the page is open nothing is handed over

/** What a file is, by its first line: a map, a scenario, or else another program's walks. */
function kindOf(bytes) {
  const first = text.decode(bytes.subarray(0, 40));
  if (/^\s*type\b/.test(first)) return "map";
  return /^\s*version\b/.test(first) ? "scen" : "walks";
}

/** What is said where a map with edits would be dropped. */
export const lostWords = () => (state.changes ? `${state.changes.toLocaleString("en")} edit${state.changes === 1 ? "" : "s"} of this map would be lost: save it first (Edit).` : "");

async function takeFiles(files) {
  await opened;
  const order = ["map", "scen", "walks"];
  const read = await Promise.all([...files].map(async (file) => ({ name: file.name, bytes: new Uint8Array(await file.arrayBuffer()) })));
  for (const it of read) it.kind = kindOf(it.bytes);
  read.sort((one, other) => order.indexOf(one.kind) - order.indexOf(other.kind));
  if (read.some((it) => it.kind === "map") && lostWords() && !confirm(`${lostWords()} Go on?`)) return;
  byId("files-dialog").close();
  try {
    for (const { kind, name, bytes } of read) {
      const take = () => during(`Reading ${name}`, () => api.take(kind, name, bytes));
      if (kind === "map") await changeMap(async () => takeMap({ ...(await take()), isDropped: true }));
      else {
        const told = await take();
        Object.assign(state, { scen: told.scen, walks: told.walks, madeScen: told.madeScen });
        tell("files", kind);
      }
    }
  } catch (fault) {
    showBanner(...faultWords(fault));
  }
}

export function pickFiles() {
  byId("files-lost").textContent = lostWords();
  byId("files-dialog").showModal();
}

function beginDrop() {
  let depth = 0;
  const mark = (by) => {
    depth += by;
    document.body.classList.toggle("dropping", depth > 0);
  };
  document.addEventListener("dragenter", () => mark(1));
  document.addEventListener("dragleave", () => mark(-1));
  document.addEventListener("dragover", (event) => event.preventDefault());
  document.addEventListener("drop", (event) => {
    event.preventDefault();
    mark(-depth);
    if (event.dataTransfer.files.length) takeFiles(event.dataTransfer.files);
  });
}

/** The maps of the site, to go to; a server has none. */
export function showMaps() {
  const names = api.maps();
  byId("files-site").hidden = names.length === 0;
  byId("files-maps").replaceChildren(...names.map((name) => element("a", { className: "button", href: `?map=${encodeURIComponent(name)}` }, name)));
}

export function beginFiles(take, whenOpened) {
  [takeMap, opened] = [take, whenOpened];
  beginDrop();
  byId("open-files").onclick = byId("open-scen").onclick = byId("open-walks").onclick = pickFiles;
  byId("file-picker").onchange = (event) => {
    takeFiles(event.target.files);
    event.target.value = "";
  };
  // The walls of a small map stand in the address, so it is there again.
  addEventListener("beforeunload", (event) => state.changes && !isSmall(state.map) && event.preventDefault());
}
