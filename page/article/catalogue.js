// The catalogue in which the shop looks up books: its address in desk.json has {isbn} for the ISBN.

import { element } from "../text/elements.js";

const PATTERN = /^https:\/\/[a-z0-9.-]+(?::\d{1,5})?[/?#][^\s{}"<>\\]*\{isbn\}[^\s{}"<>\\]*$/i;

const addressIn = (pattern, isbn) => pattern.replace("{isbn}", encodeURIComponent(isbn));

/** Whether a text is the address of a catalogue: https, with {isbn} once, after the name of the site. */
export function isCatalogue(value) {
  return typeof value === "string" && PATTERN.test(value) && URL.canParse(addressIn(value, "9780306406157"));
}

/** A link to a book in the catalogue, in a new window; nothing if desk.json has no catalogue. */
export function catalogueLink(isbn, words, { catalogue }) {
  if (catalogue === "") return [];
  return [element("a", { href: addressIn(catalogue, isbn), rel: "noreferrer", target: "_blank" }, words)];
}
