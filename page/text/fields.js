// The fields of a question: what each text means, and what is wrong with it, in words.

import { isDay, toDesk } from "./days.js";
import { isBook, isbnsIn, plain } from "./isbn.js";
import { say, sayCount } from "./wording.js";

const value = (text) => ({ value: text });
const problem = (words) => ({ problem: words });

/** The one ISBN in a text, whatever stands around it. Nothing guesses which digit of a wrong one is wrong. */
function readIsbn(text) {
  const found = isbnsIn(text);
  if (found.length === 1) return value(found[0]);
  if (found.length > 1) return problem(sayCount("wrong.isbnSeveral", found.length));
  const digits = plain(text).replace(/[- ]/g, "").toUpperCase();
  if (digits === "") return problem(say("wrong.isbnEmpty"));
  const isGoods = /^\d{13}$/.test(digits) && !isBook(digits);
  return problem(say(isGoods ? "wrong.isbnGoods" : "wrong.isbnCheck"));
}

/** A reader of codes: the text in capitals, if the grammar allows it. */
const codeReader = (grammar, wrong) => (text) => {
  const code = text.trim().toUpperCase();
  return grammar.test(code) ? value(code) : problem(say(wrong));
};

/** A country. One with another code in ONIX, such as UK for GB, is a problem: the desk would know no price there. */
function readCountry(text) {
  const read = codeReader(/^[A-Z]{2}$/, "wrong.country")(text);
  const right = read.problem === undefined ? new Intl.Locale(`und-${read.value}`).region : undefined;
  return right === undefined || right === read.value ? read : problem(say("wrong.alias", { code: read.value, right }));
}

function readQuantity(text) {
  const digits = text.trim();
  const isQuantity = /^\d{1,6}$/.test(digits) && Number(digits) > 0;
  return isQuantity ? value(String(Number(digits))) : problem(say("wrong.quantity"));
}

/** The names of the fields here, in an address and in the desk's queries, with their readers. */
const READERS = {
  isbn: readIsbn,
  day: (text) => (isDay(text) ? value(text) : problem(say("wrong.day"))),
  country: readCountry,
  currency: codeReader(/^[A-Z]{3}$/, "wrong.currency"),
  type: codeReader(/^\d\d$/, "wrong.type"),
  quantity: readQuantity,
};

/** Reads texts by name; returns the `values` of right ones, and the `problems` of the others. */
export function readAll(textsByName) {
  const found = { values: {}, problems: {} };
  for (const [name, text] of Object.entries(textsByName)) {
    const read = READERS[name](text);
    if (read.problem === undefined) found.values[name] = read.value;
    else found.problems[name] = read.problem;
  }
  return found;
}

/** The keys of the desk's query about what holds on a day. */
export function dayKeys({ day, country, currency, type, quantity }) {
  return { day: toDesk(day), country, currency, type, quantity };
}

/** The keys of the desk's query about a range of days. */
export function rangeKeys({ from, until, country, currency, type, quantity }) {
  return { from: toDesk(from), to: toDesk(until), country, currency, type, quantity };
}
