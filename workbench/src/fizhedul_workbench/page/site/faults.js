// Refusals: under the editor whose text they are about, at their place in it, with what they mean.

import { clearMarks, goTo, markFault } from "./editors.js";
import { button, byId, made } from "./made.js";
import { state, tell } from "./state.js";

const KINDS = ["db", "query"];

export function clearFaults() {
  for (const kind of KINDS) {
    byId(`${kind}-fault`).hidden = true;
    clearMarks(kind);
  }
}

function higherCap() {
  state.settings.cap = Math.min(1000000000, 10 * state.settings.cap);
  tell("settings");
  tell("ask");
}

function placeText([line, begin]) {
  return `line ${line + 1}, column ${begin + 1}`;
}

export function showFault(fault) {
  clearFaults();
  const kind = KINDS.includes(fault.which) ? fault.which : "query";
  const box = byId(`${kind}-fault`);
  const parts = [made("strong", { text: fault.line.replace(/^refused: /, "Refused: ") })];
  for (const text of fault.means) parts.push(made("p", { text }));
  if (fault.place && fault.which === kind) {
    markFault(kind, fault.place);
    const [line, begin] = fault.place;
    parts.push(button(`Go to ${placeText(fault.place)}`, () => goTo(kind, line, begin)));
  }
  if (fault.is_cap && state.settings.cap < 1000000000) parts.push(button(`Ask with ten times the cells`, higherCap));
  box.replaceChildren(...parts);
  box.hidden = false;
}

export function showBanner(text, ...acts) {
  const banner = byId("banner");
  banner.querySelector("p").textContent = text;
  banner.querySelector(".acts").replaceChildren(...acts, button("Close", () => { banner.hidden = true; }));
  banner.hidden = false;
}

export function hideBanner() {
  byId("banner").hidden = true;
}
