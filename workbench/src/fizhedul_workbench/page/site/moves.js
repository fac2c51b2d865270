// How the least answer moves with the edits of the database, and the way back.

import { replaceText } from "./editors.js";
import { button, byId, made } from "./made.js";
import { isChanged, state } from "./state.js";
import { ask } from "./wire.js";

const place = byId("moves");
const HINT = "Change a row in the database: the answer nearest to 0 is told before and after each edit.";

function row(edit, least) {
  return made("tr", {}, made("td", { text: least }), made("td", {}, edit ? made("code", { text: edit }) : "before the edits"));
}

function rows({ by, edits, least }) {
  if (by === "watch") return [row("", least[0]), ...edits.map((edit, number) => row(edit, least[number + 1]))];
  const after = made("tr", {}, made("td", { text: least[1] }), made("td", {}, `after ${edits.length ? `${edits.length} edits` : "the edits"}: decided anew`));
  return [row("", least[0]), after, ...edits.map((edit) => row(edit, ""))];
}

function undo() {
  replaceText("db", state.texts.base);
}

export async function loadMoves() {
  if (state.texts.db === state.texts.base) return place.replaceChildren(made("p", { class: "hint", text: HINT }));
  const found = await ask("moves", ["db", "query", "base"]);
  if (found.fault) return place.replaceChildren(made("p", { text: found.fault.line }), button("Undo all edits", undo));
  const head = made("tr", {}, made("th", { scope: "col", text: "least answer" }), made("th", { scope: "col", text: "edit" }));
  const kept = isChanged("db") ? "Since the file was opened or saved." : "Since the page was opened.";
  return place.replaceChildren(made("p", { class: "hint", text: kept }),
    made("table", { class: "moves" }, made("thead", {}, head), made("tbody", {}, ...rows(found))), button("Undo all edits", undo));
}
