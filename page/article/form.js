// The fields of a question about an article: their first values, what differs from the shop's, and what is wrong.

import { ASKED } from "../text/address.js";
import { inWords, isDay, today } from "../text/days.js";
import { element, found } from "../text/elements.js";
import { readAll } from "../text/fields.js";
import { codeInWords, codesOf, say, wordsOfCode } from "../text/wording.js";

// The fields that "change" unfolds.
const FOLDED = ["day", "country", "currency", "type"];

/** The texts of all fields for an address; without a day it is today. */
export function textsFor(given, { country, currency, type }) {
  return { isbn: "", day: today(), quantity: "1", country, currency, type, ...given };
}

/** Says what is wrong with a field; an empty text clears it. */
function mark(name, words) {
  found(`${name}-wrong`).textContent = words;
  if (words === "") found(name).removeAttribute("aria-invalid");
  else found(name).setAttribute("aria-invalid", "true");
}

/** Unfolds or folds the fields of "change". */
function unfold(isOpen) {
  found("more").hidden = !isOpen;
  found("change").setAttribute("aria-expanded", String(isOpen));
}

/** Says what is wrong with the fields, focuses the first one, and returns whether none is. */
export function markAll(problems) {
  for (const name of ASKED) mark(name, problems[name] ?? "");
  const wrong = ASKED.filter((name) => problems[name] !== undefined);
  if (wrong.some((name) => FOLDED.includes(name))) unfold(true);
  if (wrong.length > 0) found(wrong[0]).focus();
  return wrong.length === 0;
}

/** Lists the types that have words, and the one that the address or desk.json names. */
function fillTypes(chosen) {
  const codes = codesOf("priceTypes");
  if (/^\d\d$/.test(chosen) && !codes.includes(chosen)) codes.push(chosen);
  const options = codes.map((code) => element("option", { value: code }, codeInWords("priceTypes", code)));
  found("type").replaceChildren(...options);
  found("type").value = chosen;
}

export class Form {
  #settings;

  constructor(settings) {
    this.#settings = settings;
    for (const kind of ["input", "change"]) found("question").addEventListener(kind, () => this.describe());
    found("change").addEventListener("click", () => {
      unfold(found("more").hidden);
      if (!found("more").hidden) found("day").focus();
    });
  }

  fill(texts) {
    fillTypes(texts.type);
    for (const name of ASKED) found(name).value = texts[name];
    this.describe();
    markAll({});
    found("question-wrong").textContent = "";
  }

  /** The next ISBN, typed or scanned, replaces this one. */
  focusIsbn() {
    found("isbn").focus({ preventScroll: true });
    found("isbn").select();
  }

  /** Replaces the ISBN; an empty text waits for the next digits. */
  setIsbn(text) {
    found("isbn").value = text;
    found("isbn").focus({ preventScroll: true });
  }

  /** The question in the fields. */
  asked() {
    return Object.fromEntries(ASKED.map((name) => [name, found(name).value]));
  }

  /** Says in one line what the folded fields have, and highlights what differs from the shop's. */
  describe() {
    const texts = this.asked();
    const read = { ...texts, ...readAll(texts).values };
    const typeWords = wordsOfCode("priceTypes", texts.type);
    const day = isDay(texts.day) ? inWords(texts.day) : "";
    const shown = {
      ...read,
      day: say(texts.day === today() ? "article.today" : "article.notToday", { day }),
      type: typeWords === undefined ? texts.type : say("article.wordsOfCode", { words: typeWords, code: texts.type }),
    };
    const usual = { ...this.#settings, day: today(), quantity: "1" };
    const isUnusual = (name) => read[name] !== usual[name];
    for (const name of FOLDED) {
      found(`${name}-shown`).textContent = shown[name];
      found(`${name}-shown`).classList.toggle("unusual", isUnusual(name));
    }
    found("quantity").classList.toggle("unusual", isUnusual("quantity"));
    found("as-usual").hidden = ![...FOLDED, "quantity"].some(isUnusual);
  }
}

/** Says what the desk refused, or that the reply was not the desk's. */
export function refuse({ kind, words }) {
  found("question-wrong").textContent = kind === "fault" ? `${words} ${say("article.notAgain")}` : words;
}
