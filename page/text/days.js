// Days of the calendar, written YYYY-MM-DD, as a field for a day has them too.

import { formatter, say } from "./wording.js";

const FIRST = "0001-01-01";
const LAST = "9999-12-31";
const MILLISECONDS = 86_400_000;

const LONG = { day: "numeric", month: "long", year: "numeric" };
const SHORT = { day: "numeric", month: "short", year: "numeric" };

function instant(day) {
  return new Date(`${day}T00:00:00Z`);
}

function formatted(day, parts) {
  return formatter(Intl.DateTimeFormat, { ...parts, timeZone: "UTC" }).format(instant(day));
}

/** Whether a text is an existing day, from the year 1 to 9999. */
export function isDay(text) {
  if (!/^\d{4}-\d\d-\d\d$/.test(text) || text < FIRST) return false;
  const found = instant(text);
  return !Number.isNaN(found.getTime()) && found.toISOString().startsWith(text);
}

const numberOf = (day) => instant(day).getTime() / MILLISECONDS;

/** The day so many days later; before the first or after the last day, that one. */
export function plusDays(day, count) {
  const within = Math.min(Math.max(numberOf(day) + count, numberOf(FIRST)), numberOf(LAST));
  return new Date(within * MILLISECONDS).toISOString().slice(0, 10);
}

/** Today, by the clock and the time zone of the browser. */
export function today() {
  const now = new Date();
  const parts = [now.getMonth() + 1, now.getDate()].map((part) => String(part).padStart(2, "0"));
  return [String(now.getFullYear()).padStart(4, "0"), ...parts].join("-");
}

/** Now, by the same, for a file name, such as 2026-11-30-184205. */
export function stamp() {
  return `${today()}-${new Date().toTimeString().slice(0, 8).replaceAll(":", "")}`;
}

/** A day as the desk writes it, YYYYMMDD. */
export function toDesk(day) {
  return day.replaceAll("-", "");
}

/** A day from the desk. */
export function fromDesk(text) {
  return `${text.slice(0, 4)}-${text.slice(4, 6)}-${text.slice(6)}`;
}

/** A day in words, such as 10 April 2025. */
export function inWords(day) {
  return formatted(day, LONG);
}

/** A day in short words, such as 10 Apr 2025. */
export function dayInShort(day) {
  return formatted(day, SHORT);
}

/** How many days a range has. */
export function lengthOf({ from, until }) {
  return numberOf(until) - numberOf(from) + 1;
}

/** A time in seconds since 1970, in words: today's as a clock time, another one as a day. */
export function momentInWords(seconds) {
  const time = new Date(seconds * 1000);
  const dayOf = formatter(Intl.DateTimeFormat, { dateStyle: "long" });
  if (dayOf.format(time) !== dayOf.format(new Date())) return dayOf.format(time);
  return say("missing.todayAt", { time: formatter(Intl.DateTimeFormat, { timeStyle: "short" }).format(time) });
}

/** The time of a clock, with its seconds. */
export function timeInWords(time) {
  return formatter(Intl.DateTimeFormat, { timeStyle: "medium" }).format(time);
}
