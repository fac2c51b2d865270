// Why a tuple is an answer, or which part fails: asked of the engine, part by part.

import { clearRows, markRows, showRow } from "./editors.js";
import { button, byId, made } from "./made.js";
import { showPanel } from "./panels.js";
import { on, state } from "./state.js";
import { ask, Superseded } from "./wire.js";

const place = byId("why");
const result = made("div", { role: "status", "aria-live": "polite" });
const fields = made("form", { class: "tuple", "aria-label": "A tuple to ask about" });

// The texts and settings that the last question was about; empty where none was asked.
let asked = "";

function textsNow() {
  const { civil, tense, wide, written, cap } = state.settings;
  return [state.versions.db, state.versions.query, civil, tense, wide, written, cap].join();
}

function span() {
  const wide = state.window.to - state.window.from;
  return wide > 9007199254740991n ? 9007199254740991 : Number(wide);
}

export function showFields() {
  const inputs = state.head.map(([name, sort], column) =>
    made("label", {}, `${name}: ${sort}`, made("input", { autocomplete: "off", spellcheck: "false", "data-column": column })));
  const isSame = [...fields.querySelectorAll("label")].map((each) => each.firstChild.data).join()
    === state.head.map(([name, sort]) => `${name}: ${sort}`).join();
  if (isSame && fields.children.length) return;
  asked = "";
  fields.replaceChildren(...inputs, made("button", { type: "submit", text: "Why?" }));
  result.replaceChildren(made("p", { class: "hint", text: "Choose an answer in the picture or in the table, or type a tuple: what makes it true, or which part fails." }));
}

function tuple() {
  return [...fields.querySelectorAll("input")].map((input) => input.value);
}

function rowButton(row) {
  const shown = button(row.row, () => showRow(row), { class: "row", title: "Shows the row in the database" });
  shown.prepend(made("b", { text: `${row.relation}, line ${row.line + 1}` }));
  return shown;
}

function conjunct({ said, shown, rows }) {
  const told = shown === said ? null : made("span", { class: "told" }, "here: ", made("code", { text: shown }));
  return made("li", { class: "holds" }, made("code", { text: said }), told, ...rows.map(rowButton));
}

function way({ values, conjuncts }, number) {
  const shown = Object.entries(values).map(([name, value]) => `${name} = ${value}`).join(", ");
  const title = made("h3", { text: number === 0 ? `It is an answer, with ${shown || "no variable"}` : `Also with ${shown}` });
  return [title, made("ul", { class: "parts" }, ...conjuncts.map(conjunct))];
}

function part({ conjuncts, together }, number, count) {
  const title = count > 1 ? `Way ${number + 1} of ${count} fails` : "It is no answer";
  const items = conjuncts.map(({ said, alone }, place) => {
    const isFirst = place === together;
    const told = !alone ? "fails by itself" : isFirst ? "fails together with the parts before it" : place < together ? "holds so far" : "holds by itself";
    return made("li", { class: !alone || isFirst ? "fails" : "holds" }, made("code", { text: said }), made("span", { class: "told", text: told }));
  });
  return [made("h3", { text: title }), made("ul", { class: "parts" }, ...items)];
}

function show(found) {
  clearRows();
  if (found.fault) return result.replaceChildren(made("p", { text: found.fault.line }), ...found.fault.means.map((text) => made("p", { text })));
  if (found.unknown) return result.replaceChildren(made("p", { text: `It is no answer: neither a row nor the query has the text "${found.unknown}".` }));
  const parts = found.holds ? found.ways.flatMap(way) : found.parts.flatMap((each, number) => part(each, number, found.parts.length));
  if (found.words) parts.push(made("h3", { text: "The same on the command line" }), made("pre", { text: found.words }));
  result.replaceChildren(...parts);
  const rows = found.holds ? found.ways[0].conjuncts.flatMap((each) => each.rows) : [];
  markRows(rows);
  if (rows.length) showRow(rows[0]);
  return undefined;
}

async function askWhy() {
  showPanel("why");
  asked = textsNow();
  result.setAttribute("aria-busy", "true");
  try {
    show(await ask("why", ["db", "query"], { answer: tuple(), near: span() }));
  } catch (fault) {
    if (!(fault instanceof Superseded)) result.replaceChildren(made("p", { text: `Refused: ${fault.message}.` }));
  } finally {
    result.removeAttribute("aria-busy");
  }
}

// Where the texts changed since a tuple was asked about, it is asked about again.
export async function askAgain() {
  if (asked !== "" && asked !== textsNow()) await askWhy();
}

export function startWhy() {
  place.replaceChildren(fields, result);
  fields.addEventListener("submit", (event) => {
    event.preventDefault();
    askWhy();
  });
  on("chosen", () => {
    // Of a range its first time is asked about.
    const answer = state.answers[state.chosen];
    for (const [column, input] of [...fields.querySelectorAll("input")].entries()) input.value = answer[column];
  });
  on("why", () => { if (state.chosen >= 0) askWhy(); });
}
