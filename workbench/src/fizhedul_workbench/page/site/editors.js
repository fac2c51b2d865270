// The two editors: texts, marks of faults, and rows that are pointed at.

import { isChanged, on, setText, state, tell } from "./state.js";
import { complete, offer } from "./completion.js";

export const editors = {};
const marks = { db: [], query: [] };
const noted = { db: [], query: [] };
const rows = [];
const LABELS = { db: "The database", query: "The query" };

function separatorOf(text) {
  return /\r\n/.test(text) && !/[^\r]\n/.test(text) ? "\r\n" : "\n";
}

export function makeEditor(kind, text) {
  const place = document.getElementById(`${kind}-editor`);
  const editor = window.CodeMirror(place, {
    value: text,
    mode: "fizhedul",
    theme: "fizhedul",
    lineNumbers: true,
    lineSeparator: separatorOf(text),
    lineWrapping: kind === "query",
    matchBrackets: true,
    autoCloseBrackets: "(){}",
    inputStyle: "contenteditable",
    screenReaderLabel: LABELS[kind],
    undoDepth: 1000,
    extraKeys: {
      "Ctrl-Space": () => complete(editor, kind),
      "Ctrl-Enter": () => tell("ask"),
      Tab: false,
      "Shift-Tab": false,
    },
  });
  editors[kind] = editor;
  const input = editor.getInputField();
  input.setAttribute("role", "textbox");
  input.setAttribute("aria-multiline", "true");
  editor.on("change", () => {
    setText(kind, editor.getValue(editor.lineSeparator()));
    showFile(kind);
    tell("changed", kind);
  });
  editor.on("inputRead", (_, change) => offer(editor, kind, change));
}

export function showFile(kind) {
  const file = document.getElementById(`${kind}-file`);
  file.textContent = state.names[kind] ?? "not in a file";
  file.classList.toggle("changed", isChanged(kind));
  const isAny = ["db", "query"].some((each) => state.names[each] && isChanged(each));
  document.getElementById("save").disabled = !isAny;
}

export function replaceText(kind, text) {
  editors[kind].setValue(text);
}

export function clearMarks(kind) {
  for (const mark of marks[kind]) mark.clear();
  marks[kind] = [];
}

// Marks the token at the place of a fault.
export function markFault(kind, place) {
  clearMarks(kind);
  const editor = editors[kind];
  const [line, begin, end] = place;
  if (line > editor.lastLine()) return;
  const length = editor.getLine(line).length;
  const from = Math.min(begin, Math.max(0, length - 1));
  const mark = editor.markText({ line, ch: from }, { line, ch: Math.max(from + 1, Math.min(end, length)) }, { className: "fault-mark" });
  const handle = editor.addLineClass(line, "wrap", "fault-line");
  marks[kind] = [mark, { clear: () => editor.removeLineClass(handle, "wrap", "fault-line") }];
}

// Marks what notes are about.
export function markNotes(kind, places) {
  for (const mark of noted[kind].splice(0)) mark.clear();
  for (const [line, begin, end] of places) {
    noted[kind].push(editors[kind].markText({ line, ch: begin }, { line, ch: end }, { className: "note-mark" }));
  }
}

export function goTo(kind, line, ch) {
  editors[kind].setCursor({ line, ch });
  editors[kind].focus();
}

export function clearRows() {
  for (const mark of rows.splice(0)) mark.clear();
}

// Marks rows of the database by where they begin and end in its text.
export function markRows(found) {
  clearRows();
  const editor = editors.db;
  for (const { begin, end } of found) {
    rows.push(editor.markText(editor.posFromIndex(begin), editor.posFromIndex(end), { className: "row-mark" }));
  }
}

export function showRow(row) {
  const editor = editors.db;
  const { line } = editor.posFromIndex(row.begin);
  editor.scrollTo(0, editor.charCoords({ line, ch: 0 }, "local").top - editor.getScrollInfo().clientHeight / 3);
}

on("changed", (kind) => { if (kind === "db") clearRows(); });
