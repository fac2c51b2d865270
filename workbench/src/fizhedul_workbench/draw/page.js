"use strict";
(() => {
  const facts = JSON.parse(document.getElementById("facts").textContent);
  const frame = document.getElementById("frame");
  const picture = document.getElementById("timeline");
  const grid = document.getElementById("grid");
  const marks = document.getElementById("marks");
  const told = document.getElementById("told");
  const left = Number(picture.dataset.left);
  const width = Number(picture.dataset.width);
  const bottom = Number(picture.dataset.bottom);
  const first = BigInt(facts.first);
  const count = marks.querySelectorAll(".mark").length;
  const chunks = [...marks.children].map((group) =>
    ({ group, begin: Number(group.dataset.begin), end: Number(group.dataset.end) }));
  const mostZoom = Math.max(1, facts.span / 4);
  let zoom = 1;
  let shift = 0;
  let chosen = -1;
  let isAsked = false;
  let rest = 0;

  function label(time) {
    if (!facts.dates) return String(time);
    const moment = new Date(Number(time) * 3600000 / facts.hour);
    if (Number.isNaN(moment.getTime())) return String(time);
    const text = moment.toISOString().replace(/:\d\d\.\d+Z$/, "").replace("T", " ");
    return text.endsWith(" 00:00") ? text.slice(0, -6) : text;
  }

  function shape(name, attributes, text) {
    const made = document.createElementNS("http://www.w3.org/2000/svg", name);
    for (const [key, value] of Object.entries(attributes)) made.setAttribute(key, value);
    if (text !== undefined) made.textContent = text;
    return made;
  }

  // The multiples of a step in view.
  function stepTimes(begin, seen) {
    const step = BigInt(facts.steps.find((each) => seen <= each * facts.lines) ?? facts.steps.at(-1));
    const start = begin - ((begin % step) + step) % step;
    return Array.from({ length: 40 }, (_, number) => start + BigInt(number) * step);
  }

  // The beginnings of months or years in view; none where dates do not reach.
  function monthTimes(begin, seen) {
    const hours = 3600000 / facts.hour;
    const start = new Date(Number(begin) * hours);
    if (Number.isNaN(start.getTime()) || start.getUTCFullYear() < 101) return [];
    const step = facts.months.find((each) => seen <= each * facts.month * facts.lines) ?? facts.months.at(-1);
    const month = Math.floor((12 * start.getUTCFullYear() + start.getUTCMonth()) / step) * step;
    const times = Array.from({ length: 40 }, (_, number) => Date.UTC(2000, month + number * step - 24000, 1) / hours);
    return times.filter((time) => Number.isSafeInteger(time)).map((time) => BigInt(time));
  }

  // The grid is drawn anew for what is in view.
  function drawGrid() {
    const seen = facts.span / zoom;
    const begin = first + BigInt(Math.floor(-shift / zoom / width * facts.span));
    const isLong = facts.dates && seen > 168 * facts.hour * facts.lines;
    const months = isLong ? monthTimes(begin, seen) : [];
    const shapes = [];
    for (const time of months.length ? months : stepTimes(begin, seen)) {
      const x = left + shift + Number(time - first) / facts.span * width * zoom;
      if (x < left - 1 || x > left + width + 1) continue;
      shapes.push(shape("line", { x1: x, x2: x, y1: 28, y2: bottom }));
      shapes.push(shape("text", { x, y: 20 }, label(time)));
    }
    grid.replaceChildren(...shapes);
  }

  function draw() {
    isAsked = false;
    marks.setAttribute("transform", `translate(${shift} 0) scale(${zoom} 1)`);
    for (const { group, begin, end } of chunks) {
      const isSeen = end * zoom + shift >= -4 && begin * zoom + shift <= width + 4;
      group.style.display = isSeen ? "" : "none";
    }
    drawGrid();
    picture.dataset.zoom = zoom;
  }

  function show(newZoom, newShift) {
    zoom = Math.min(mostZoom, Math.max(1, newZoom));
    shift = Math.min(0, Math.max(width * (1 - zoom), newShift));
    // Many marks are drawn without their edges while they move.
    if (count > 2000) {
      marks.classList.add("moving");
      clearTimeout(rest);
      rest = setTimeout(() => marks.classList.remove("moving"), 200);
    }
    if (!isAsked) {
      isAsked = true;
      requestAnimationFrame(draw);
    }
  }

  function zoomAt(factor, x) {
    const next = Math.min(mostZoom, Math.max(1, zoom * factor));
    show(next, x - (x - shift) * next / zoom);
  }

  // From a place on the screen to one in the picture, from 0 to the width.
  function placeOf(event) {
    const box = picture.getBoundingClientRect();
    return (event.clientX - box.left) * picture.viewBox.baseVal.width / box.width - left;
  }

  function choose(number, isShown) {
    if (number < 0 || number >= count) return;
    for (const each of document.querySelectorAll(".chosen")) each.classList.remove("chosen");
    chosen = number;
    const mark = document.getElementById(`m${number}`);
    const row = document.getElementById(`r${number}`);
    mark.classList.add("chosen");
    row.classList.add("chosen");
    told.textContent = mark.querySelector("title").textContent;
    if (isShown) {
      const at = Number(mark.dataset.at);
      const x = at * zoom + shift;
      if (x < 0 || x > width) show(zoom, width / 2 - at * zoom);
      mark.scrollIntoView({ block: "nearest", inline: "nearest" });
      const answers = document.getElementById("answers");
      answers.scrollTop = row.offsetTop - answers.clientHeight / 2;
    }
  }

  const acts = {
    in: () => zoomAt(1.6, width / 2),
    out: () => zoomAt(1 / 1.6, width / 2),
    left: () => show(zoom, shift + width / 5),
    right: () => show(zoom, shift - width / 5),
    whole: () => show(1, 0),
    next: () => choose(chosen + 1, true),
    previous: () => choose(chosen - 1, true),
  };
  const keys = {
    "+": "in", "=": "in", "-": "out", "0": "whole", Home: "whole",
    ArrowLeft: "left", ArrowRight: "right", n: "next", p: "previous",
  };

  frame.addEventListener("keydown", (event) => {
    const act = keys[event.key];
    if (!act || event.ctrlKey || event.metaKey || event.altKey) return;
    event.preventDefault();
    acts[act]();
  });
  document.querySelector(".tools").addEventListener("click", (event) => {
    const act = event.target.dataset.act;
    if (act) acts[act]();
  });
  frame.addEventListener("wheel", (event) => {
    if (event.shiftKey) return;
    event.preventDefault();
    if (Math.abs(event.deltaX) > Math.abs(event.deltaY)) show(zoom, shift - event.deltaX);
    else zoomAt(Math.exp(-event.deltaY / 400), placeOf(event));
  }, { passive: false });

  let grabbed = null;
  frame.addEventListener("pointerdown", (event) => {
    if (event.button === 0) grabbed = { x: placeOf(event), shift };
  });
  addEventListener("pointermove", (event) => {
    if (grabbed) show(zoom, grabbed.shift + placeOf(event) - grabbed.x);
  });
  addEventListener("pointerup", () => { grabbed = null; });
  marks.addEventListener("pointerover", (event) => {
    const mark = event.target.closest(".mark");
    if (mark && !grabbed) choose(Number(mark.id.slice(1)), false);
  });
  marks.addEventListener("click", (event) => {
    const mark = event.target.closest(".mark");
    if (mark) choose(Number(mark.id.slice(1)), true);
  });
  draw();
})();
