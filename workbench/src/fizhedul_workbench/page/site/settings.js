// The window as it is typed, and how texts are read, planned and bounded.

import { byId } from "./made.js";
import { on, setWindow, state, tell } from "./state.js";
import { shownTime, timeOf } from "./times.js";

const FLAGS = ["civil", "tense", "wide", "dates", "bars"];

export function applySettings(chosen) {
  for (const flag of [...FLAGS, "written"]) state.settings[flag] = chosen[flag];
  state.settings.cap = chosen.cap;
  const [from, to] = [timeOf(chosen.from), timeOf(chosen.to)];
  state.window = { from, to };
  state.first = { from, to };
}

function showWindow() {
  for (const end of ["from", "to"]) {
    const input = byId(end);
    if (document.activeElement !== input) input.value = shownTime(state.window[end]);
    input.removeAttribute("aria-invalid");
  }
}

export function showSettings() {
  for (const flag of FLAGS) byId(flag).checked = state.settings[flag];
  byId("guarded").checked = !state.settings.written;
  byId("cap").value = state.settings.cap;
  byId("limit").value = state.settings.limit;
  showWindow();
}

function takeWindow(event) {
  event.preventDefault();
  const ends = ["from", "to"].map((end) => {
    const time = timeOf(byId(end).value);
    if (time === null) byId(end).setAttribute("aria-invalid", "true");
    else byId(end).removeAttribute("aria-invalid");
    return time;
  });
  if (ends.includes(null)) return;
  document.activeElement.blur();
  setWindow(...ends);
}

function takeNumber(key, most) {
  const input = byId(key);
  const number = /^\d{1,10}$/.test(input.value.trim()) ? Number(input.value) : 0;
  const isFit = number >= 1 && number <= most;
  input.setAttribute("aria-invalid", String(!isFit));
  if (!isFit) return;
  state.settings[key] = number;
  tell("settings");
}

export function startSettings() {
  byId("window").addEventListener("submit", takeWindow);
  for (const end of ["from", "to"]) byId(end).addEventListener("blur", showWindow);
  for (const flag of FLAGS) {
    byId(flag).addEventListener("change", (event) => {
      state.settings[flag] = event.target.checked;
      tell("settings");
    });
  }
  byId("guarded").addEventListener("change", (event) => {
    state.settings.written = !event.target.checked;
    tell("settings");
  });
  byId("cap").addEventListener("change", () => takeNumber("cap", 1000000000));
  byId("limit").addEventListener("change", () => takeNumber("limit", 2000));
  on("window", showWindow);
}
