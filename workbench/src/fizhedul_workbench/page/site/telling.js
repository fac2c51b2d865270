// What goes on: how long a question has taken, or takes still, and its end by hand.

import { byId } from "./made.js";
import { on } from "./state.js";
import { stop } from "./wire.js";

export function startTelling() {
  const doing = byId("doing");
  const begun = new Map();
  const say = () => {
    const first = Math.min(...begun.values());
    const seconds = (performance.now() - first) / 1000;
    byId("stop").hidden = !begun.size || seconds < 0.4;
    if (!begun.size) return;
    if (seconds >= 0.4) doing.textContent = `Asking: ${seconds.toFixed(1)} s`;
    setTimeout(say, 100);
  };
  on("doing", ({ lane, begun: at }) => {
    begun.set(lane, at);
    if (begun.size === 1) setTimeout(say, 400);
  });
  on("done", ({ lane }) => {
    if (!begun.has(lane)) return;
    if (lane === "look") doing.textContent = `${Math.round(performance.now() - begun.get(lane))} ms`;
    begun.delete(lane);
    byId("stop").hidden = true;
  });
  byId("stop").addEventListener("click", () => {
    stop();
    begun.clear();
    doing.textContent = "Stopped";
  });
}
