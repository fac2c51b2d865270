// The plan as a tree, with the period and the reach of each step, and the cells that it fills where they were measured.

import { button, byId, made } from "./made.js";
import { state } from "./state.js";
import { ask, Superseded } from "./wire.js";

const place = byId("plan");
const tree = made("ul", { class: "tree", role: "tree", "aria-label": "The steps of the plan; each stands over what it is made of" });
const told = made("p", { class: "hint", role: "status" });
const measure = button("Measure the cells", measured);
let steps = [];
// What is told of the cells of each step; a time has the start of the engine in it.
let cells = [];

function node(step, seen) {
  const { said, of, period, reach } = steps.find((each) => each.step === step);
  const isAgain = seen.has(step);
  seen.add(step);
  const count = isAgain ? "" : cells[step - 1];
  const line = made("div", { class: "node" }, made("code", { text: `${step} ${said}` }),
    made("small", { text: isAgain ? "as above" : `period ${period}, reach ${reach}` }),
    count ? made("small", { class: "cells", text: count }) : null);
  const isLeaf = isAgain || of.length === 0;
  const item = made("li", { role: "treeitem", tabindex: "-1", class: isLeaf ? "leaf" : null, "aria-expanded": isLeaf ? null : "true" }, line);
  if (!isLeaf) item.append(made("ul", { role: "group" }, ...of.map((each) => node(each, seen))));
  return item;
}

function show() {
  const last = steps.at(-1);
  tree.replaceChildren(...(last ? [node(last.step, new Set())] : []));
  tree.querySelector("li")?.setAttribute("tabindex", "0");
}

async function measured() {
  measure.disabled = true;
  told.textContent = "Measuring: the query is asked again under lower caps.";
  try {
    const found = await ask("cells", ["db", "query"]);
    if (found.fault) {
      told.textContent = found.fault.line;
    } else {
      cells = found.told;
      told.textContent = `${found.all[0].toUpperCase()}${found.all.slice(1)}.`;
      show();
    }
  } catch (fault) {
    if (!(fault instanceof Superseded)) throw fault;
  } finally {
    measure.disabled = false;
  }
}

export async function loadPlan() {
  cells = [];
  told.textContent = "";
  const found = await ask("plan", ["db", "query"]);
  steps = found.fault ? [] : found.steps;
  if (found.fault) told.textContent = found.fault.line;
  else told.textContent = `The answers repeat after ${steps.at(-1).period}, and a step may fill ${state.settings.cap} cells.`;
  measure.hidden = Boolean(found.fault);
  show();
}

function items() {
  return [...tree.querySelectorAll("[role='treeitem']")].filter((each) => !each.parentElement.closest("[aria-expanded='false']"));
}

function focus(item) {
  if (!item) return;
  for (const each of tree.querySelectorAll("[role='treeitem']")) each.tabIndex = -1;
  item.tabIndex = 0;
  item.focus();
}

function fold(item, isOpen) {
  if (item.hasAttribute("aria-expanded")) item.setAttribute("aria-expanded", String(isOpen));
}

function act(key, item) {
  const all = items();
  const at = all.indexOf(item);
  const isOpen = item.getAttribute("aria-expanded") === "true";
  const acts = {
    ArrowDown: () => focus(all[at + 1]),
    ArrowUp: () => focus(all[at - 1]),
    Home: () => focus(all[0]),
    End: () => focus(all.at(-1)),
    ArrowRight: () => (isOpen ? focus(all[at + 1]) : fold(item, true)),
    ArrowLeft: () => (isOpen ? fold(item, false) : focus(item.parentElement.closest("[role='treeitem']"))),
    Enter: () => fold(item, !isOpen),
  };
  acts[key]?.();
  return key in acts;
}

export function startPlan() {
  place.replaceChildren(told, measure, tree);
  tree.addEventListener("keydown", (event) => {
    if (act(event.key, event.target.closest("[role='treeitem']"))) event.preventDefault();
  });
  tree.addEventListener("click", (event) => {
    const item = event.target.closest("[role='treeitem']");
    if (!item) return;
    fold(item, item.getAttribute("aria-expanded") !== "true");
    focus(item);
  });
}
