// The calls of the server. A later call of a lane takes the place of an earlier one.

import { state, tell } from "./state.js";

const known = {};
const lanes = new Map();
// Requests are numbered, since one that was sent before another may come after it.
let count = 0;

export class Superseded extends Error {}
export class Refused extends Error {}

async function post(name, body, signal) {
  let response;
  try {
    response = await fetch(`api/${name}`, {
      method: "POST", headers: { "Content-Type": "application/json" }, body: JSON.stringify(body), signal,
    });
  } catch (fault) {
    if (fault.name === "AbortError") throw new Superseded();
    tell("gone");
    throw new Superseded();
  }
  tell("here");
  return response;
}

async function read(response) {
  const found = await response.json();
  if (found.superseded) throw new Superseded();
  if (found.refused) throw new Refused(found.refused);
  return found;
}

export async function call(name, body = {}) {
  return read(await post(name, body));
}

function sending(kinds, forgotten) {
  const texts = {};
  for (const kind of kinds) {
    const version = state.versions[kind];
    const isKnown = known[kind] === version && !forgotten.includes(kind);
    texts[kind] = isKnown ? { version } : { version, text: state.texts[kind] };
  }
  return texts;
}

function settings() {
  return { ...state.settings, from: String(state.window.from), to: String(state.window.to) };
}

// Asks about the texts of these kinds, which are sent where the server doesn't have them.
async function sent(name, lane, kinds, more, signal, forgotten = []) {
  const texts = sending(kinds, forgotten);
  count += 1;
  const response = await post(name, { tab: state.tab, lane, number: count, texts, ...settings(), ...more }, signal);
  if (response.status === 409) {
    const found = await response.clone().json();
    if (found.missing && !forgotten.length) return sent(name, lane, kinds, more, signal, found.missing);
  }
  if (response.ok) for (const kind of kinds) known[kind] = texts[kind].version;
  return response;
}

export async function ask(name, kinds, more = {}, lane = name) {
  lanes.get(lane)?.abort();
  const control = new AbortController();
  lanes.set(lane, control);
  tell("doing", { lane, begun: performance.now() });
  try {
    return await read(await sent(name, lane, kinds, more, control.signal));
  } catch (fault) {
    throw fault.name === "AbortError" ? new Superseded() : fault;
  } finally {
    if (lanes.get(lane) === control) {
      lanes.delete(lane);
      tell("done", { lane });
    }
  }
}

export async function shared() {
  const response = await sent("share", "share", ["db", "query"], {}, undefined);
  if (response.headers.get("Content-Type").startsWith("text/html")) return response.blob();
  throw Object.assign(new Refused("no file could be made"), await response.json());
}

export function isAsking() {
  return lanes.size > 0;
}

export function stop() {
  for (const [lane, control] of lanes) {
    control.abort();
    lanes.delete(lane);
    count += 1;
    call("stop", { tab: state.tab, lane, number: count }).catch(() => {});
  }
}
