// The answers as a table, page by page.

import { byId, made } from "./made.js";
import { on, state, tell } from "./state.js";
import { ask, Superseded } from "./wire.js";

const place = byId("answers");
const head = place.querySelector("thead");
const body = place.querySelector("tbody");
const more = byId("more");

function cell(value, sort) {
  return made("td", { class: sort === "time" ? null : "text", text: value });
}

function rowsOf(answers, begin) {
  return answers.map((answer, number) => {
    const cells = answer.map((value, column) => cell(value, state.columns[column][1]));
    return made("tr", { "data-number": begin + number }, ...(cells.length ? cells : [made("td", { text: "()" })]));
  });
}

export function showTable() {
  place.classList.remove("stale");
  const heads = state.columns.map(([name, sort]) =>
    made("th", { scope: "col", class: sort === "time" ? null : "text", text: `${name}: ${sort}` }));
  head.replaceChildren(made("tr", {}, ...heads));
  body.replaceChildren(...rowsOf(state.answers, 0));
  place.scrollTop = 0;
  showMore();
  mark();
}

// How many answers are shown, and of how many, where that is known.
export function showMore() {
  more.hidden = state.more === null;
  const unit = state.columns.length > state.head.length ? "range" : "answer";
  const count = `${state.answers.length} ${unit}${state.answers.length === 1 ? "" : "s"}`;
  const others = state.total === null ? ", and more" : ` of ${state.total}`;
  byId("count").textContent = state.more === null ? count : count + others;
}

async function load() {
  if (state.more === null || more.disabled) return;
  more.disabled = true;
  const { answers } = state;
  try {
    const found = await ask("next", ["db", "query"], { after: state.more });
    // Another question was answered meanwhile.
    if (state.answers !== answers) return undefined;
    if (found.fault) return tell("fault", found.fault);
    body.append(...rowsOf(found.answers, state.answers.length));
    state.answers.push(...found.answers);
    state.more = found.more;
    showMore();
  } catch (fault) {
    if (!(fault instanceof Superseded)) throw fault;
  } finally {
    more.disabled = false;
  }
  return undefined;
}

export function dimTable() {
  place.classList.add("stale");
}

function mark() {
  for (const row of body.querySelectorAll(".chosen")) {
    row.classList.remove("chosen");
    row.removeAttribute("aria-selected");
  }
  const row = body.rows[state.chosen];
  row?.classList.add("chosen");
  row?.setAttribute("aria-selected", "true");
  return row;
}

export function choose({ number, isAsked = false }) {
  if (number < 0 || number >= state.answers.length) return;
  state.chosen = number;
  const row = mark();
  if (row) place.scrollTop = row.offsetTop - place.clientHeight / 2;
  tell("chosen");
  if (isAsked) tell("why");
}

export function startTable() {
  more.addEventListener("click", load);
  new IntersectionObserver((seen) => {
    if (seen.some((each) => each.isIntersecting)) load();
  }, { root: place }).observe(more);
  body.addEventListener("click", (event) => {
    const row = event.target.closest("tr");
    if (row) choose({ number: Number(row.dataset.number), isAsked: true });
  });
  place.addEventListener("keydown", (event) => {
    const step = { ArrowDown: 1, n: 1, ArrowUp: -1, p: -1 }[event.key];
    if (event.ctrlKey || event.metaKey || event.altKey || event.target !== place) return;
    if (step) choose({ number: state.chosen + step });
    else if (event.key === "Enter") tell("why");
    else return;
    event.preventDefault();
  });
  on("choose", choose);
}
