// What the texts hold that is seldom meant: below the editors, each note with its place.

import { goTo, markNotes } from "./editors.js";
import { button, byId, made } from "./made.js";
import { ask } from "./wire.js";

const KINDS = ["db", "query"];

function note({ which, place, said }) {
  const [line, begin] = place;
  return made("p", {}, `${said} `, button(`Go to line ${line + 1}`, () => goTo(which, line, begin)));
}

function show(kind, notes) {
  const box = byId(`${kind}-notes`);
  markNotes(kind, notes.map(({ place }) => place));
  box.hidden = notes.length === 0;
  box.replaceChildren(...notes.map(note));
}

export function hideNotes() {
  for (const kind of KINDS) show(kind, []);
}

export async function loadNotes() {
  const { notes, others } = await ask("notes", KINDS);
  for (const kind of KINDS) show(kind, notes.filter(({ which }) => which === kind));
  const last = notes.at(-1);
  if (others) byId(`${last.which}-notes`).append(made("p", { text: `And ${others} more: 'fizhedul lint' writes all of them.` }));
}
