// A certificate of the query that is shown: written by `prove`, judged by `check`, its values as a heat map.

import * as api from "./api.js";
import { byId, commandLine, copy, during, element, faultWords, mapWord, on, saveAs, state } from "./app.js";
import { decimal, readCertificate } from "./lines.js";
import { endWords, hasEnds } from "./query.js";
import { redraw, views } from "./stage.js";
import { heatPicture } from "./states.js";
import { ANSWERS } from "./words.js";

export const HEAT = ["#440154", "#414487", "#2a788e", "#22a884", "#7ad151", "#fde725"];
const text = new TextDecoder();
let certificate = null;
let control = null;

function showHeat() {
  const isOn = certificate && byId("show-heat").checked && state.tab === "certificate" && !state.compare;
  for (const view of views) view.content.heat = isOn ? certificate.picture : null;
  redraw();
}

function forget() {
  control?.abort();
  certificate = null;
  byId("checked").textContent = "";
  byId("prove-said").textContent = "";
  byId("prove-scale").hidden = true;
  byId("save-cert").disabled = true;
  if (hasEnds()) {
    const settings = { rule: state.rule };
    byId("prove-command").textContent = `${commandLine(["prove", mapWord(), ...endWords()], settings)} > walk.cert\n`
      + commandLine(["check", mapWord(), "walk.cert"], settings);
  }
  showHeat();
}

function take(output) {
  const cells = readCertificate(output);
  const high = cells.least ? Number(decimal(cells.least.straight, cells.least.diagonal)) : 0;
  const picture = cells.x.length ? heatPicture(cells, high, HEAT) : null;
  certificate = { output, picture };
  const count = cells.x.length.toLocaleString("en");
  byId("save-cert").disabled = false;
  byId("prove-scale").hidden = !cells.least || !picture;
  byId("scale-high").textContent = cells.least ? `${cells.least.straight} + ${cells.least.diagonal}·√2` : "";
  byId("prove-said").textContent = cells.least
    ? `${picture ? `${count} cells have a listed value; each other one` : "No cell has a listed value, so none is drawn: each"} has the least cost less its octile distance to the goal. No legal `
      + "move raises the value by more than it costs, and from start to goal it rises by the walk's cost: so no walk costs less."
    : `${count} cells are listed: the start is one, the goal is none, and no legal move leads out of them. So no walk exists.`;
}

async function prove() {
  forget();
  const [sx, sy, gx, gy] = endWords();
  const words = { command: "prove", rule: state.rule, sx, sy, gx, gy };
  control = new AbortController();
  try {
    const proved = await during("The program is proving", (signal) => api.run(words, signal), control.signal);
    if (proved.status === 1) {
      byId("checked").textContent = ANSWERS[text.decode(proved.output).trim()];
      return;
    }
    take(proved.output);
    const checked = await during("The program is checking", (signal) => api.run({ command: "check", rule: state.rule }, signal), control.signal);
    const said = text.decode(checked.output).trim();
    byId("checked").replaceChildren(element("b", { className: `kind ${said.split(" ")[0]}` }, said));
    showHeat();
  } catch (fault) {
    if (fault.name !== "AbortError" || !hasEnds()) byId("checked").textContent = faultWords(fault).join(" ");
  }
}

export function beginCertificate() {
  byId("prove").onclick = () => hasEnds() && prove();
  byId("show-heat").onchange = showHeat;
  byId("save-cert").onclick = () => certificate && saveAs("walk.cert", certificate.output, "text/plain");
  byId("copy-prove").onclick = (event) => copy(byId("prove-command").textContent, event.target);
  for (const name of ["ends", "settings", "edited", "map"]) on(name, forget);
  on("tab", showHeat);
  on("answer", showHeat);
}
