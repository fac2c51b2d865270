// The page: what is asked when something changes, and who shows it.

import { makeEditor, showFile } from "./editors.js";
import { clearFaults, hideBanner, showBanner, showFault } from "./faults.js";
import { defineMode } from "./grammar.js";
import { button, byId } from "./made.js";
import { loadMoves } from "./moves.js";
import { hideNotes, loadNotes } from "./notes.js";
import { shownPanel, startPanels } from "./panels.js";
import { dim, showPicture, showPinned, showVerdict, startPicture } from "./picture.js";
import { loadPlan, startPlan } from "./plan.js";
import { startSaving } from "./saving.js";
import { applySettings, showSettings, startSettings } from "./settings.js";
import { on, setText, state, tell } from "./state.js";
import { showCount, showSummary, verdict } from "./summary.js";
import { dimTable, showTable, startTable } from "./table.js";
import { startTelling } from "./telling.js";
import { ask, call, isAsking, Superseded } from "./wire.js";
import { askAgain, showFields, startWhy } from "./why.js";
import { showWords } from "./words.js";

const LARGE = 300000;
let wait = null;
let rest = null;
// The query and the version of the database that were answered last.
let asked = "";
let read = 0;
let isRetried = false;

// Work that a later one may take the place of.
function quietly(work) {
  return work.catch((fault) => {
    if (fault instanceof Superseded) return;
    showBanner(`Refused: ${fault.message}`);
    throw fault;
  });
}

// Whether an answer takes long: of a large database, unless the engine has its answers from before.
function isLong() {
  const isKept = state.engine === "library" && state.texts.query === asked && state.versions.db === read;
  return state.texts.db.length > LARGE && !isKept;
}

function soon() {
  clearTimeout(wait);
  wait = setTimeout(() => {
    wait = null;
    quietly(look());
  }, isLong() ? 250 : 15);
}

// What can wait until the keys rest.
function later() {
  clearTimeout(rest);
  rest = setTimeout(() => {
    rest = null;
    quietly(side());
  }, 150);
}

// Whether all that was changed has its answer.
function isAtRest() {
  return wait === null && rest === null && !isAsking();
}

async function side() {
  const panel = shownPanel();
  await loadNotes();
  if (panel === "plan") await loadPlan();
  if (panel === "moves") await loadMoves();
  if (panel === "why") await askAgain();
}

function frameWidth() {
  return Math.max(240, Math.min(8000, Math.round(byId("frame").clientWidth)));
}

async function look() {
  const window = state.window;
  const query = state.texts.query;
  const database = state.versions.db;
  const kinds = state.isPinned ? ["db", "query", "pinned"] : ["db", "query"];
  const lanes = query === asked ? state.lanes : [];
  const found = await ask("look", kinds, { lanes, width: frameWidth() });
  if (found.fault) return refused(found.fault);
  isRetried = false;
  clearFaults();
  read = database;
  shown(found, window, query);
  return undefined;
}

function refused(fault) {
  dim();
  dimTable();
  byId("summary").classList.add("stale");
  hideNotes();
  if (fault.which !== "engine" || fault.line.startsWith("refused")) return showFault(fault);
  if (isRetried) return showBanner(`${fault.line}.`, button("Ask again", () => tell("ask")));
  isRetried = true;
  showBanner(`${fault.line}; it was started again.`);
  return soon();
}

function shown(found, window, query) {
  const before = state.answers[state.chosen];
  Object.assign(state, { head: found.head, columns: found.columns, answers: found.answers, more: found.more, total: null });
  state.lanes = query === asked ? [...new Map([...state.lanes, ...found.lanes].map((lane) => [JSON.stringify(lane), lane])).values()] : found.lanes;
  asked = query;
  state.chosen = before ? found.answers.findIndex((answer) => answer.join("\n") === before.join("\n")) : -1;
  showFields();
  const hasTime = found.columns.some(([, sort]) => sort === "time");
  if (hasTime) showPicture(found, window);
  else showVerdict(verdict(found));
  showSummary(found, hasTime);
  showTable();
  showWords(found.words);
  byId("pinned").hidden = !found.pinned;
  if (found.pinned) showPinned(found.pinned, state.texts.pinned.replace(/^\s*#.*$/gm, "").trim().replace(/\s+/g, " ").slice(0, 160));
  // The engine counts answers with one time; where ranges are shown the number is told with them.
  if (found.more && found.columns.filter(([, sort]) => sort === "time").length === 1) quietly(showCount());
  document.documentElement.dataset.shown = String(Number(document.documentElement.dataset.shown ?? 0) + 1);
  later();
}

async function loadSchema() {
  const found = await ask("schema", ["db"]);
  if (found.fault) return;
  state.schema = found;
  const rows = found.relations.reduce((sum, each) => sum + each.rows, 0);
  byId("db-has").textContent = `${found.relations.map((each) => each.name).join(", ")}: ${rows} row${rows === 1 ? "" : "s"}`;
}

// The first relation, for a page that was started without a query.
function suggested() {
  const first = state.schema.relations[0];
  if (!first) return "{ t: time | t = t }\n";
  const head = first.columns.map(([name, sort]) => `${name}: ${sort}`).join(", ");
  return `# ${first.name}: all of its rows, in the window.\n{ ${head} | ${first.name}(${first.columns.map(([name]) => name).join(", ")}) }\n`;
}

function startPin() {
  byId("pin").addEventListener("click", (event) => {
    state.isPinned = !state.isPinned;
    if (state.isPinned) setText("pinned", state.texts.query);
    event.target.setAttribute("aria-pressed", String(state.isPinned));
    soon();
  });
}

function startListening() {
  on("changed", (kind) => {
    soon();
    if (kind === "db") quietly(loadSchema());
  });
  on("window", soon);
  on("ask", soon);
  on("settings", () => { showSettings(); soon(); if (shownPanel() === "plan") later(); });
  on("fault", refused);
  on("panel", later);
  on("saved", () => { soon(); later(); });
  on("gone", () => showBanner("The server doesn't answer. Your texts are still here: start 'fizhedul page' again, and copy them over, or wait."));
  on("here", () => { if (byId("banner").textContent.startsWith("The server doesn't")) hideBanner(); });
  let width = 0;
  new ResizeObserver(() => {
    if (Math.abs(frameWidth() - width) > 8 && width) soon();
    width = frameWidth();
  }).observe(byId("frame"));
}

function take(found) {
  applySettings(found.chosen);
  state.engine = found.engine;
  for (const kind of ["db", "query"]) {
    state.names[kind] = found[kind].name;
    state.digests[kind] = found[kind].digest;
    state.saved[kind] = found[kind].text;
    setText(kind, found[kind].text);
  }
  setText("base", found.db.text);
  document.title = `${found.db.name} \u2013 Fizhedul`;
}

async function start() {
  const [grammar, found] = await Promise.all([fetch("site/grammar.json").then((each) => each.json()), call("open")]);
  if (found.fault) return showBanner(found.fault.line);
  defineMode(grammar);
  take(found);
  for (const begin of [startTelling, startListening, startPanels, startPicture, startTable, startWhy, startPlan, startSaving, startSettings, startPin]) begin();
  makeEditor("db", found.db.text);
  const schema = quietly(loadSchema());
  if (!found.query.text.trim()) {
    await schema;
    setText("query", suggested());
  }
  makeEditor("query", state.texts.query);
  for (const kind of ["db", "query"]) showFile(kind);
  showSettings();
  await quietly(look());
  await quietly(loadMoves());
  return undefined;
}

quietly(start());
// For tests, and for whoever looks at the page from its console.
window.fizhedul = { state, isAtRest };
