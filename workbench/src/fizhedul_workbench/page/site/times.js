// Times as they are typed and shown: whole numbers, or dates of minutes since 1970-01-01 00:00.

import { LIMIT, state } from "./state.js";

const NUMBER = /^\s*(-?\d{1,20})\s*$/;
const DATE = /^\s*(\d{4})-(\d\d)-(\d\d)(?:[ T](\d\d):(\d\d))?\s*$/;
const FIRST = -1035593280n;
const LAST = 4223371679n;

function minuteOf(text) {
  const found = DATE.exec(text);
  if (!found) return null;
  const [year, month, day, hour, minute] = found.slice(1).map((part) => Number(part ?? 0));
  const moment = new Date(0);
  moment.setUTCFullYear(year, month - 1, day);
  moment.setUTCHours(hour, minute);
  const isSame = moment.getUTCMonth() === month - 1 && moment.getUTCDate() === day && hour < 24 && minute < 60;
  return isSame && year > 0 ? BigInt(moment.getTime() / 60000) : null;
}

// The time of a text, or null where it is none.
export function timeOf(text) {
  const date = state.settings.civil ? minuteOf(text) : null;
  if (date !== null) return date;
  if (!NUMBER.test(text)) return null;
  const number = BigInt(text.trim());
  return number >= -LIMIT && number <= LIMIT ? number : null;
}

export function shownTime(time) {
  if (!state.settings.civil || time < FIRST || time > LAST) return String(time);
  const moment = new Date(Number(time) * 60000);
  return moment.toISOString().replace(/^[+-]?0*(\d{4})/, "$1").slice(0, 16).replace("T", " ");
}

// A part of a span of time.
export function partOf(span, part) {
  return (span * BigInt(Math.round(part * 1e9))) / 1000000000n;
}
