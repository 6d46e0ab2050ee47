// Titles of books, as wholesalers' feeds said them last. They lie in files beside the page, by ISBN: no answer of the
// desk has them, and nobody has proved them.

import { urlBeside } from "../text/address.js";
import { element } from "../text/elements.js";
import { shortened, undirected } from "../text/said.js";
import { wholesalerOf } from "./settings.js";
import { say, sayParts } from "../text/wording.js";

// A missing file is answered 204, or 404 by a server that has no titles.
const FOUND = 200;
const NONE = [204, 404];

// An entry has a series, a number and a moment, and, unless it is a deletion, then title, subtitle, contributors and
// publisher.
const HEAD = 3;
const LENGTH = 7;

// How many letters of each part are shown, so that none hides who said it, or what others say.
const MOST_LETTERS = 120;

const areTexts = (values) => values.every((value) => typeof value === "string");
const isTitle = (entry) =>
  Array.isArray(entry) && entry.length === LENGTH && areTexts([entry[0], ...entry.slice(HEAD)]);

/** The address of the file with the title of an ISBN. */
export function fileOf(isbn) {
  return `state/titles/${isbn.slice(0, 5)}/${isbn.slice(0, 8)}.json`;
}

/** The titles that a file has for an ISBN: the last one of each series, the last taken first. */
function titlesIn(file, isbn) {
  const entries = Object.hasOwn(file, isbn) ? file[isbn] : [];
  const found = Array.isArray(entries) ? entries.filter(isTitle) : [];
  return found.map(([series, , , title, subtitle, contributors, publisher]) => (
    { series, title, subtitle, contributors, publisher }
  ));
}

/**
 * The titles of each of these ISBNs of one file, by ISBN: an empty list if no feed said one, and none at all if the
 * file cannot be read. Throws `AbortError` if nobody waits for it any longer.
 */
export async function titlesOf(isbns, signal) {
  try {
    const reply = await fetch(urlBeside(fileOf(isbns[0])), { cache: "no-cache", signal });
    if (reply.status !== FOUND && !NONE.includes(reply.status)) return new Map();
    const file = reply.status === FOUND ? await reply.json() : {};
    return new Map(isbns.map((isbn) => [isbn, titlesIn(file, isbn)]));
  } catch {
    signal.throwIfAborted();
    return new Map();
  }
}

// The codes of contributors' roles, after their names.
const ROLE = / \([A-Z]\d\d\)/g;

/**
 * The titles of the series that offer a book, the `chosen` offer's first. A feed may name any ISBN; what it says of one
 * that it does not offer does not count.
 */
export function titlesOfOffers(titles, offers, chosen) {
  const names = offers.map(({ series }) => series);
  const isChosen = ({ series }) => series === chosen?.series;
  return titles.filter(({ series }) => names.includes(series)).sort((one, other) => isChosen(other) - isChosen(one));
}

const bare = (text) => text.normalize("NFKD").toLowerCase().replace(/[^\p{L}\p{N}]+/gu, "");

/** Whether two titles are the same but for case, punctuation and subtitle. */
function isSame(one, other) {
  const [first, second] = [one, other].map(({ title, subtitle }) => [bare(title), bare(title + subtitle)]);
  return first.some((text) => second.includes(text));
}

/** The titles that differ from the first one. */
export function differing([first, ...others]) {
  return first === undefined ? [] : others.filter((other) => !isSame(first, other));
}

/** A title as texts: with its subtitle, contributors, publisher; empty if there is none. */
export function titleTexts(titles) {
  if (titles.length === 0) return [];
  const [{ title, subtitle, contributors, publisher }] = titles;
  const whole = [title, subtitle].filter((text) => text !== "").join(": ");
  return [whole, contributors.replace(ROLE, ""), publisher].map(undirected).filter((text) => text !== "");
}

/** Notes that others say another title, a sign of a wrong ISBN. */
function differNodes(titles, settings) {
  return differing(titles).flatMap(({ series, title }) => [
    " · ",
    element("span", {}, ...sayParts("titles.differs", {
      wholesaler: wholesalerOf(settings, series), title: element("q", {}, shortened(title, MOST_LETTERS)),
    })),
  ]);
}

/** The same as nodes: the title marked as a text from others. Empty if no feed said one. */
export function titleNodes(titles, settings) {
  const [title, ...others] = titleTexts(titles);
  if (title === undefined) return [];
  const behind = others.flatMap((text) => [" · ", element("bdi", {}, shortened(text, MOST_LETTERS))]);
  const whole = { class: "clamped", title: [title, ...others].join(" · ") };
  const quoted = element("q", {}, shortened(title, MOST_LETTERS));
  return [element("span", whole, quoted, ...behind), ...differNodes(titles, settings)];
}

/** The same, with whose feed said it and that it is not proved; or that none did. */
export function titleSaid(titles, settings) {
  if (titles.length === 0) return [element("small", {}, say("titles.none"))];
  const said = say("titles.said", { wholesaler: wholesalerOf(settings, titles[0].series) });
  return [...titleNodes(titles, settings), " ", element("small", {}, said)];
}
