// Completion: relations with their columns, variables, sorts, words of the language, and texts of a column's sort.

import { state } from "./state.js";

const WORDS = ["exists", "forall", "not", "and", "or", "implies", "in", "time", "data"];
const OPERATORS = ["once", "always", "since", "until"];
const DEFINING = ["define", "as"];

function columnsOf(relation) {
  return relation.columns.map(([name, sort]) => `${name}: ${sort}`).join(", ");
}

function relations() {
  return state.schema.relations.map((each) => ({ text: each.name, more: `(${columnsOf(each)})`, open: true }));
}

function variables(text) {
  return [...text.matchAll(/([A-Za-z_]\w*)\s*:\s*[A-Za-z_]/g)].map((found) => ({ text: found[1] }));
}

function definitions(text) {
  const found = [...text.matchAll(/define\s+([A-Za-z_]\w*)\s*\(([^)]*)\)/g)];
  return found.map(([, name, columns]) => ({ text: name, more: `(${columns})`, open: true }));
}

function sorts() {
  return Object.keys(state.schema.texts).map((text) => ({ text }));
}

// The columns of the relation that stands before a place of a database.
function columnsBefore(text) {
  const head = [...text.matchAll(/relation\s+\w+\s*\(([^)]*)\)/g)].pop();
  return head ? [...head[1].matchAll(/(\w+)\s*:/g)].map((found) => ({ text: found[1] })) : [];
}

function choices(kind, before) {
  if (kind === "query") {
    const { tense, wide } = state.settings;
    const words = [...WORDS, ...(tense || wide ? OPERATORS : []), ...(wide ? DEFINING : [])];
    return [...variables(state.texts.query), ...relations(), ...(wide ? definitions(state.texts.query) : []), ...sorts(), ...words.map((text) => ({ text }))];
  }
  return [...columnsBefore(before), ...["relation", "where", "time", "data"].map((text) => ({ text })), ...sorts()];
}

// The sort of the column at the end of a text inside of an atom or a row; none where that isn't known.
function sortAt(before, kind) {
  const open = before.lastIndexOf("(");
  const head = /([A-Za-z_]\w*)\s*$/.exec(before.slice(0, open));
  const name = kind === "query" ? head?.[1] : [...before.matchAll(/relation\s+(\w+)/g)].pop()?.[1];
  const place = before.slice(open + 1).replace(/"(?:[^"\\]|\\.)*"/g, "").split(",").length - 1;
  return state.schema.relations.find((each) => each.name === name)?.columns[place]?.[1];
}

function textHints(before, front, kind) {
  const sort = sortAt(before, kind);
  const all = sort && state.schema.texts[sort] ? state.schema.texts[sort] : Object.values(state.schema.texts).flat();
  return [...new Set(all)].filter((text) => text.startsWith(front)).map((text) => ({ text, more: "" }));
}

function written(text) {
  return text.replaceAll("\\", "\\\\").replaceAll('"', '\\"');
}

function shown(hint) {
  return (element) => {
    element.append(hint.text);
    if (hint.more) element.append(Object.assign(document.createElement("small"), { textContent: hint.more }));
  };
}

function hintsAt(editor, kind) {
  const cursor = editor.getCursor();
  const line = editor.getLine(cursor.line).slice(0, cursor.ch);
  const before = editor.getRange({ line: Math.max(0, cursor.line - 400), ch: 0 }, cursor);
  const inText = /"((?:[^"\\]|\\.)*)$/.exec(line.replace(/"(?:[^"\\]|\\.)*"/g, (text) => " ".repeat(text.length)));
  const front = inText ? inText[1] : /[A-Za-z_]?\w*$/.exec(line)[0];
  const from = { line: cursor.line, ch: cursor.ch - front.length };
  const found = inText ? textHints(before.slice(0, before.length - front.length - 1), front, kind)
    : choices(kind, before).filter(({ text }) => text.startsWith(front) && text !== front);
  const isClosed = editor.getLine(cursor.line)[cursor.ch] === '"';
  const list = [...new Map(found.map((hint) => [hint.text, hint])).values()].slice(0, 60).map((hint) => ({
    text: inText ? written(hint.text) + (isClosed ? "" : '"') : hint.text,
    render: (element) => shown(hint)(element),
  }));
  return { list, from, to: cursor };
}

export function complete(editor, kind) {
  editor.showHint({ hint: () => hintsAt(editor, kind), completeSingle: false });
}

// Completion that comes by itself: after two letters of a name, or inside of a text.
export function offer(editor, kind, change) {
  const cursor = editor.getCursor();
  const line = editor.getLine(cursor.line).slice(0, cursor.ch);
  const isName = /(?:^|[^\w"])[A-Za-z_]\w+$/.test(line) && (line.match(/"/g) ?? []).length % 2 === 0;
  if (isName && /^\w$/.test(change.text[0]) && hintsAt(editor, kind).list.length) complete(editor, kind);
}
