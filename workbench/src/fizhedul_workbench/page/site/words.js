// The words that give the same on the command line.

import { button, byId, made } from "./made.js";
import { isChanged, state } from "./state.js";

export function showWords(words) {
  const copy = button("Copy", () => navigator.clipboard.writeText(words));
  const parts = [made("p", { class: "hint", text: "The same on the command line, page by page:" }), made("pre", { text: words }), copy];
  if (state.names.db && isChanged("db")) parts.push(made("p", { text: "The database was changed here: save it first." }));
  byId("words").replaceChildren(...parts);
}
