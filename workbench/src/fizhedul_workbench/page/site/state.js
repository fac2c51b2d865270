// What the page knows, and who is told when it changes.

export const LIMIT = 4611686018427387904n;

export const state = {
  tab: crypto.randomUUID(),
  texts: { db: "", query: "", base: "", pinned: "" },
  versions: { db: 1, query: 1, base: 1, pinned: 1 },
  digests: { db: "", query: "" },
  saved: { db: "", query: "" },
  names: { db: null, query: null },
  engine: "program",
  settings: { civil: false, tense: false, wide: false, written: false, dates: false, bars: false, cap: 1000000, limit: 500 },
  window: { from: 0n, to: 1439n },
  first: { from: 0n, to: 1439n },
  // The columns of the query, and those of what is shown, which are other ones where ranges are.
  head: [],
  columns: [],
  answers: [],
  more: null,
  total: null,
  lanes: [],
  chosen: -1,
  isPinned: false,
  schema: { relations: [], texts: {} },
};

const listeners = new Map();

export function on(event, act) {
  listeners.set(event, [...(listeners.get(event) ?? []), act]);
}

export function tell(event, detail) {
  for (const act of listeners.get(event) ?? []) act(detail);
}

export function setText(kind, text) {
  state.texts[kind] = text;
  state.versions[kind] += 1;
}

export function isChanged(kind) {
  return state.texts[kind] !== state.saved[kind];
}

// A span of at least four steps of time, inside of the times that there are.
export function setWindow(from, to) {
  let first = from < -LIMIT ? -LIMIT : from;
  let last = to > LIMIT ? LIMIT : to;
  if (last < first + 4n) last = first + 4n > LIMIT ? LIMIT : first + 4n;
  if (last - first < 4n) first = last - 4n;
  state.window = { from: first, to: last };
  tell("window");
}
