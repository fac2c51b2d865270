// Saving, whole or not at all, and the page as a file.

import { replaceText, showFile } from "./editors.js";
import { hideBanner, showBanner, showFault } from "./faults.js";
import { button, byId } from "./made.js";
import { isChanged, setText, state, tell } from "./state.js";
import { call, shared } from "./wire.js";

async function save(kind, isForced = false) {
  const text = state.texts[kind];
  const found = await call("save", { which: kind, text, digest: state.digests[kind], forced: isForced });
  if (found.changed) {
    showBanner(`${state.names[kind]} was changed by somebody else since it was read.`,
      button("Save over it", () => save(kind, true).then(hideBanner)), button("Take the file's text", () => reload(kind)));
  } else if (found.fault) {
    showBanner(`Not saved: ${found.fault.line}`);
  } else {
    saved(kind, text, found.digest);
  }
}

function saved(kind, text, digest) {
  state.saved[kind] = text;
  state.digests[kind] = digest;
  if (kind === "db") setText("base", text);
  showFile(kind);
  tell("saved", kind);
}

async function reload(kind) {
  const found = await call("open");
  if (found.fault) return showBanner(`Not read: ${found.fault.line}`);
  saved(kind, found[kind].text, found[kind].digest);
  replaceText(kind, found[kind].text);
  return hideBanner();
}

export async function saveAll() {
  for (const kind of ["db", "query"]) {
    if (state.names[kind] && isChanged(kind)) await save(kind);
  }
}

async function shareFile() {
  try {
    const address = URL.createObjectURL(await shared());
    const link = Object.assign(document.createElement("a"), { href: address, download: "fizhedul.html" });
    link.click();
    setTimeout(() => URL.revokeObjectURL(address), 10000);
  } catch (fault) {
    if (fault.fault) showFault(fault.fault);
    else throw fault;
  }
}

export function startSaving() {
  byId("save").addEventListener("click", saveAll);
  byId("share").addEventListener("click", shareFile);
  addEventListener("keydown", (event) => {
    if (!(event.ctrlKey || event.metaKey) || event.key.toLowerCase() !== "s") return;
    event.preventDefault();
    saveAll();
  });
  addEventListener("beforeunload", (event) => {
    const isLost = ["db", "query"].some((kind) => state.names[kind] && isChanged(kind));
    if (isLost) event.preventDefault();
  });
}

