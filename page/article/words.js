// What an answer says to do, in words: one sentence, and the details below it.

import { isNothing, money, times } from "../text/amounts.js";
import { inWords, today } from "../text/days.js";
import { areUnpriced, availabilityOf } from "../desk/offers.js";
import { kindOf } from "../desk/price-types.js";
import { wholesalerOf } from "../desk/settings.js";
import { codeInWords, inDigits, say, sayCount } from "../text/wording.js";
import { retailInWords } from "./retail.js";

/** How many copies, in words. */
export function copiesInWords(quantity) {
  return sayCount("article.copies", Number(quantity));
}

/** What differs from the shop's usual question; empty if nothing does. */
export function conditionsOf({ day, country, currency, type }, settings) {
  const found = [
    ...(day === today() ? [] : [inWords(day)]),
    ...(country === settings.country ? [] : [country]),
    ...(currency === settings.currency ? [] : [currency]),
    ...(type === settings.type ? [] : [codeInWords("priceTypes", type)]),
  ];
  return found.length === 0 ? "" : `${found.join(" · ")}:`;
}

/** The kind of an answer: `none`, `unpriced`, `notChosen`, `free`, `net`, `retail` or `other`. */
export function kindOfAnswer({ offers, choice, question }) {
  if (offers.length === 0) return "none";
  if (areUnpriced(offers)) return "unpriced";
  if (choice === null) return "notChosen";
  const kind = kindOf(question.type);
  return kind !== "retail" && isNothing(choice.amount) ? "free" : kind;
}

/** The sentence of an answer; of the `doubtful` wholesalers something may be missing. */
export function sentenceOf(answer, settings, doubtful) {
  const kind = kindOfAnswer(answer);
  const { quantity, type, currency } = answer.question;
  if (kind === "none") {
    const wholesalers = doubtful.map((name) => wholesalerOf(settings, name)).join(", ");
    return wholesalers === "" ? say("article.noOffers") : say("article.noOffersYet", { wholesalers });
  }
  if (kind === "unpriced") {
    const path = kindOf(type) === "net" ? "article.unpricedNet" : "article.unpriced";
    return say(path, { type: codeInWords("priceTypes", type), copies: copiesInWords(quantity), currency });
  }
  if (kind === "notChosen") return say("article.notChosen");
  return say(`article.chosen.${kind}`, {
    count: inDigits(Number(quantity)),
    wholesaler: wholesalerOf(settings, answer.choice.series),
    amount: money(answer.choice.amount, currency),
    type: codeInWords("priceTypes", type),
  });
}

/** What all copies cost, if the sentence says to buy; else an empty text. */
export function sumInWords(answer) {
  if (kindOfAnswer(answer) !== "net") return "";
  const { quantity, currency } = answer.question;
  return money(times(answer.choice.amount, quantity), currency);
}

/** The details below the sentence: the book, its availability, and the margin. */
export function detailsOf(answer) {
  const { choice, question, retail } = answer;
  const parts = [say("article.answerFor", { isbn: question.isbn })];
  if (kindOfAnswer(answer) === "none") return [...parts, say("article.askPublisher")];
  if (choice === null || areUnpriced(answer.offers)) return parts;
  parts.push(availabilityOf(choice));
  return [...parts, ...retailInWords(retail, choice, question)];
}
