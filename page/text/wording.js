// The page's words in the shop's language, filled in.

import { texts as de } from "../words/de.js";
import { texts as en } from "../words/en.js";

const SHIPPED = { de, en };

const spoken = { language: "en-GB", texts: en };
const formatters = new Map();

/** Sets the page's language, such as de-AT; English words if it has no others. */
export function speak(language) {
  const [name] = language.split("-");
  spoken.language = language;
  spoken.texts = Object.hasOwn(SHIPPED, name) ? SHIPPED[name] : en;
}

/** A formatter of Intl in the page's language, made once for each kind and options. */
export function formatter(Kind, options = {}) {
  const key = JSON.stringify([spoken.language, Kind.name, options]);
  if (!formatters.has(key)) formatters.set(key, new Kind(spoken.language, options));
  return formatters.get(key);
}

/** A number in the page's language. */
export const inDigits = (number) => formatter(Intl.NumberFormat).format(number);

/** The text or table of texts at a path such as `article.isbn`; throws if there is none. */
function at(path) {
  const found = path.split(".").reduce((part, key) => part?.[key], spoken.texts);
  if (found === undefined) throw new Error(`there are no words for ${path}`);
  return found;
}

/** The parts of the text at a path, with names in braces replaced by `values`, nodes too. */
export function sayParts(path, values = {}) {
  const parts = at(path).split(/\{(\w+)\}/);
  return parts.map((part, place) => (place % 2 === 0 ? part : (values[part] ?? `{${part}}`)));
}

/** The text at a path, with names in braces replaced by `values`. */
export function say(path, values = {}) {
  return sayParts(path, values).join("");
}

/** The text at a path in the form for a count, which it fills in as `count`. */
export function sayCount(path, count, values = {}) {
  const form = formatter(Intl.PluralRules).select(count);
  const chosen = Object.hasOwn(at(path), form) ? form : "other";
  return say(`${path}.${chosen}`, { count: inDigits(count), ...values });
}

/** The words of a code in a table of texts, such as `availabilities`, or `undefined`. */
export function wordsOfCode(list, code) {
  const words = at(list);
  return Object.hasOwn(words, code) ? words[code] : undefined;
}

/** A code, followed by its words. */
export function codeInWords(list, code) {
  const words = wordsOfCode(list, code) ?? say("article.unknownCode");
  return say("article.codeInWords", { code, words });
}

/** All codes of a list that have words, in order. */
export function codesOf(list) {
  return Object.keys(at(list)).sort();
}

/** Puts the text into each element below `root` that names one by `data-text`. */
export function labelAll(root) {
  for (const labelled of root.querySelectorAll("[data-text]")) {
    labelled.textContent = say(labelled.dataset.text);
  }
  for (const labelled of root.querySelectorAll("[data-label]")) {
    labelled.setAttribute("aria-label", say(labelled.dataset.label));
  }
}
