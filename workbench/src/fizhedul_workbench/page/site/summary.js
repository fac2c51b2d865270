// One sentence on the window, and the ways on from it.

import { button, byId } from "./made.js";
import { setWindow, state } from "./state.js";
import { showMore } from "./table.js";
import { timeOf } from "./times.js";
import { ask } from "./wire.js";

export function verdict(found) {
  if (found.columns.length) return `${found.answers.length} answer${found.answers.length === 1 ? "" : "s"}, at no time.`;
  return found.answers.length ? "Yes: it holds." : "No: it doesn't hold.";
}

// A window of the same length, from the first time of the last answer that is shown.
function goOn({ answers, columns }) {
  const times = answers.at(-1).filter((_, column) => columns[column][1] === "time").map(timeOf);
  const begin = times.reduce((one, other) => (other < one ? other : one));
  setWindow(begin, begin + state.window.to - state.window.from);
}

function goToTimes(times) {
  const numbers = times.map(timeOf);
  const wide = state.window.to - state.window.from;
  const least = numbers.reduce((one, other) => (other < one ? other : one));
  const most = numbers.reduce((one, other) => (other > one ? other : one));
  const begin = least - wide / 10n;
  setWindow(begin, begin + wide > most ? begin + wide : most + wide / 10n);
}

export function showSummary(found, hasTime) {
  const summary = byId("summary");
  summary.classList.remove("stale");
  summary.textContent = hasTime ? found.summary : "";
  if (!hasTime) return;
  if (found.more) summary.append(button("Go on after these", () => goOn(found)));
  if (found.answers.length) return;
  const near = found.nearest;
  summary.append(near ? ` The one nearest to 0 is ${near.answer.join(", ")}.` : " There is none at any other time.");
  if (near) summary.append(button("Go there", () => goToTimes(near.times)));
}

// How many answers there are in all, where the engine counts them.
export async function showCount() {
  const { answers } = state;
  const { count } = await ask("count", ["db", "query"]);
  // Another question was answered meanwhile.
  if (state.answers !== answers) return;
  state.total = count;
  showMore();
}
