// The tabs beside the table, and the way from part to part of the page by keys.

import { byId } from "./made.js";
import { tell } from "./state.js";

const NAMES = ["why", "plan", "moves", "words", "settings"];
let current = "why";

export function shownPanel() {
  return current;
}

export function showPanel(name, isFocused = false) {
  const isNew = name !== current;
  current = name;
  for (const each of NAMES) {
    const tab = byId(`tab-${each}`);
    const isShown = each === name;
    tab.setAttribute("aria-selected", String(isShown));
    tab.tabIndex = isShown ? 0 : -1;
    byId(each).hidden = !isShown;
    if (isShown && isFocused) tab.focus();
  }
  if (isNew) tell("panel", name);
}

function goRound(step) {
  const place = (NAMES.indexOf(current) + step + NAMES.length) % NAMES.length;
  showPanel(NAMES[place], true);
}

// The first part after the one with the focus, or before it.
function goToRegion(step) {
  const regions = [...document.querySelectorAll("[data-region]")];
  const now = regions.findIndex((each) => each.contains(document.activeElement));
  const next = regions[(now + step + regions.length) % regions.length];
  const editor = next.querySelector(".CodeMirror");
  if (editor) editor.CodeMirror.focus();
  else (next.querySelector(".frame[tabindex], #answers, [aria-selected='true']") ?? next).focus();
}

export function startPanels() {
  for (const name of NAMES) byId(`tab-${name}`).addEventListener("click", () => showPanel(name));
  document.querySelector(".tabs").addEventListener("keydown", (event) => {
    const step = { ArrowRight: 1, ArrowLeft: -1 }[event.key];
    if (step) goRound(step);
  });
  addEventListener("keydown", (event) => {
    if (event.key !== "F2") return;
    event.preventDefault();
    goToRegion(event.shiftKey ? -1 : 1);
  });
  const help = byId("help");
  byId("keys").addEventListener("click", () => help.showModal());
}
