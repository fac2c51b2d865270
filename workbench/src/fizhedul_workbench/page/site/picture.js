// The timeline: the picture that the server drew of a window; while it moves it is moved here, and asked for anew.

import { byId, made } from "./made.js";
import { on, setWindow, state, tell } from "./state.js";
import { partOf } from "./times.js";

const frame = byId("frame");
// The picture with its window: what is seen may be another window until the next picture comes.
let drawn = null;
let grabbed = null;

function parsed(text) {
  const read = new DOMParser().parseFromString(text, "image/svg+xml").documentElement;
  return document.importNode(read, true);
}

function readGrid(picture) {
  return [...picture.querySelectorAll(".grid > *")].map((shape) => ({ shape, x: Number(shape.getAttribute("x1") ?? shape.getAttribute("x")) }));
}

export function showPicture(found, window) {
  const picture = parsed(found.svg);
  const data = picture.dataset;
  drawn = { picture, window, left: Number(data.left), width: Number(data.width), grid: readGrid(picture), marks: picture.querySelector(".marks") };
  frame.replaceChildren(picture);
  frame.classList.remove("stale");
  move();
  mark(state.chosen);
}

// A query without columns of time has no place on a line of times.
export function showVerdict(text) {
  drawn = null;
  frame.classList.remove("stale");
  frame.replaceChildren(made("p", { class: "verdict", text }));
}

export function showPinned(found, caption) {
  const place = byId("pinned-frame");
  byId("pinned").querySelector(".caption").textContent = found.fault ? `${caption}: ${found.fault.line}` : `${caption}: ${found.summary}`;
  if (found.fault) return place.replaceChildren();
  const picture = parsed(found.svg);
  for (const each of picture.querySelectorAll("[id]")) if (each.id !== "inside") each.removeAttribute("id");
  picture.removeAttribute("id");
  picture.querySelector("clipPath").id = "inside-pinned";
  picture.querySelector("[clip-path]").setAttribute("clip-path", "url(#inside-pinned)");
  return place.replaceChildren(picture);
}

export function dim() {
  frame.classList.add("stale");
}

// Where a time of the drawn window stands now: places are stretched and shifted.
function stretch() {
  const { window } = drawn;
  const span = Number(window.to - window.from) || 1;
  const seen = Number(state.window.to - state.window.from) || 1;
  const zoom = span / seen;
  return { zoom, shift: (Number(window.from - state.window.from) / seen) * drawn.width };
}

function move() {
  if (!drawn) return;
  const { zoom, shift } = stretch();
  const isSame = Math.abs(zoom - 1) < 1e-9 && Math.abs(shift) < 1e-6;
  if (isSame) drawn.marks.removeAttribute("transform");
  else drawn.marks.setAttribute("transform", `translate(${shift} 0) scale(${zoom} 1)`);
  for (const { shape, x } of drawn.grid) {
    const place = drawn.left + (x - drawn.left) * zoom + shift;
    for (const key of shape.tagName === "line" ? ["x1", "x2"] : ["x"]) shape.setAttribute(key, place);
    shape.style.display = place < drawn.left - 1 || place > drawn.left + drawn.width + 1 ? "none" : "";
  }
}

function span() {
  return state.window.to - state.window.from;
}

function zoomAt(factor, part) {
  const wide = partOf(span(), 1 / factor);
  const begin = state.window.from + partOf(span(), part) - partOf(wide, part);
  setWindow(begin, begin + (wide > 4n ? wide : 4n));
}

function shiftBy(part) {
  const step = partOf(span(), part) || (part > 0 ? 1n : -1n);
  setWindow(state.window.from + step, state.window.to + step);
}

// The part of the window at which the pointer stands, from 0 to 1.
function partAt(event) {
  const box = drawn.picture.getBoundingClientRect();
  const x = ((event.clientX - box.left) * drawn.picture.viewBox.baseVal.width) / box.width;
  return Math.min(1, Math.max(0, (x - drawn.left) / drawn.width));
}

const acts = {
  in: () => zoomAt(1.6, 0.5),
  out: () => zoomAt(1 / 1.6, 0.5),
  left: () => shiftBy(-0.25),
  right: () => shiftBy(0.25),
  whole: () => setWindow(state.first.from, state.first.to),
  next: () => tell("choose", { number: state.chosen + 1 }),
  previous: () => tell("choose", { number: state.chosen - 1 }),
  why: () => tell("why"),
};
const keys = {
  "+": "in", "=": "in", "-": "out", "0": "whole", Home: "whole", ArrowLeft: "left", ArrowRight: "right",
  n: "next", p: "previous", Enter: "why",
};

function mark(number) {
  for (const each of frame.querySelectorAll(".mark.chosen")) each.classList.remove("chosen");
  const chosen = frame.querySelector(`#m${number}`);
  chosen?.classList.add("chosen");
  return chosen;
}

export function startPicture() {
  frame.addEventListener("keydown", (event) => {
    const act = keys[event.key];
    if (!act || event.ctrlKey || event.metaKey || event.altKey) return;
    event.preventDefault();
    acts[act]();
  });
  document.querySelector(".tools").addEventListener("click", (event) => acts[event.target.dataset.act]?.());
  frame.addEventListener("wheel", (event) => {
    if (event.shiftKey || !drawn) return;
    event.preventDefault();
    if (Math.abs(event.deltaX) > Math.abs(event.deltaY)) shiftBy(event.deltaX / drawn.width);
    else zoomAt(Math.exp(-event.deltaY / 400), partAt(event));
  }, { passive: false });
  frame.addEventListener("pointerdown", (event) => {
    if (event.button === 0 && drawn) grabbed = { x: event.clientX, window: state.window, moved: false };
  });
  addEventListener("pointermove", (event) => {
    if (!grabbed || !drawn || Math.abs(event.clientX - grabbed.x) < 3) return;
    grabbed.moved = true;
    const scale = drawn.picture.viewBox.baseVal.width / drawn.picture.getBoundingClientRect().width;
    const wide = grabbed.window.to - grabbed.window.from;
    const step = partOf(wide, ((grabbed.x - event.clientX) * scale) / drawn.width);
    setWindow(grabbed.window.from + step, grabbed.window.to + step);
  });
  addEventListener("pointerup", () => setTimeout(() => { grabbed = null; }));
  frame.addEventListener("click", (event) => {
    const chosen = event.target.closest(".mark");
    if (chosen && !grabbed?.moved) tell("choose", { number: Number(chosen.id.slice(1)), isAsked: true });
  });
  on("window", move);
  on("chosen", () => mark(state.chosen)?.scrollIntoView({ block: "nearest", inline: "nearest" }));
}
