// The table of a day's offers: what each costs, how much more than the chosen one, and how long.

import { compareAmounts, difference, money, signedMoney } from "../text/amounts.js";
import { dayInShort } from "../text/days.js";
import { element, table } from "../text/elements.js";
import { availabilityDot, keyOf, referenceOf } from "../desk/offers.js";
import { kindOf } from "../desk/price-types.js";
import { wholesalerOf } from "../desk/settings.js";
import { inDigits, say, sayCount } from "../text/wording.js";
import { copiesInWords, kindOfAnswer } from "./words.js";

const tag = (className, words, title) => element("span", { class: `tag ${className}`, title }, words);

const isChosen = (offer, choice) => choice !== null && keyOf(choice) === keyOf(offer);

function nameCell(offer, { choice, question }, { settings, reports }) {
  const words = kindOf(question.type) === "retail" ? "article.ruleTakes" : "article.ruleChooses";
  const chosen = isChosen(offer, choice) ? [tag("mark", say(words, { rule: choice.rule }))] : [];
  const reasons = reports.reasonsOf(offer.series);
  const old = reasons.length > 0 ? [tag("unusual", say("article.oldTag"), reasons.join("; "))] : [];
  const parts = [
    element("span", { class: "name" }, wholesalerOf(settings, offer.series)), " ",
    element("small", { class: "reference" }, referenceOf(offer)),
  ];
  for (const mark of [...chosen, ...old]) parts.push(" ", mark);
  return parts;
}

/** The price of an offer, or that it has none of the type for so few copies, in the currency. */
function priceCell({ amount }, { type, currency, quantity }) {
  if (amount !== null) return [money(amount, currency)];
  const words = say("article.noPriceOf", { type, copies: copiesInWords(quantity), currency });
  return [element("span", { class: "lacking" }, words)];
}

/** How much more an offer costs than the chosen one; if it costs less, why it is not chosen. */
function differenceCell(offer, { choice, question }) {
  if (offer.amount === null) return [""];
  if (isChosen(offer, choice)) return ["–"];
  const words = signedMoney(difference(offer.amount, choice.amount), question.currency);
  if (compareAmounts(offer.amount, choice.amount) >= 0) return [words];
  return [words, " ", element("small", {}, sayCount("article.cheaper", choice.rule))];
}

/** The prices of an offer at the shop's quantities; a link asks for each. */
function copiesCell(offer, { question, copies }, { settings, addressWith }) {
  if (copies === undefined) return ["…"];
  const wholesaler = wholesalerOf(settings, offer.series);
  const items = copies.map(({ quantity, offers }) => {
    const amount = offers.find((other) => keyOf(other) === keyOf(offer))?.amount ?? null;
    const price = amount === null ? say("article.noPrice") : money(amount, question.currency);
    const words = say("article.atCopies", { count: inDigits(quantity), price });
    if (quantity === Number(question.quantity)) return element("li", {}, element("strong", {}, words));
    const label = say("article.copiesFrom", { copies: copiesInWords(quantity), wholesaler, price });
    const link = { href: addressWith({ quantity: String(quantity) }), "aria-label": label };
    return element("li", {}, element("a", link, words));
  });
  return [element("ul", { class: "copies" }, ...items)];
}

/** How long the price of an offer holds, if it ends within the calendar. */
function holdsCell(offer, { ahead, question }) {
  const found = ahead?.get(keyOf(offer));
  if (found?.last === undefined || offer.amount === null) return [""];
  const amount = found.then === null ? say("article.noPrice") : money(found.then, question.currency);
  return [say("article.holdsUntil", { last: dayInShort(found.last), amount })];
}

function rowOf(offer, answer, place) {
  const isWorthIt = ["net", "other"].includes(kindOfAnswer(answer));
  return {
    className: isChosen(offer, answer.choice) && isWorthIt ? "chosen" : undefined,
    cells: [
      nameCell(offer, answer, place),
      [availabilityDot(offer)],
      priceCell(offer, answer.question),
      ...(answer.choice === null ? [] : [differenceCell(offer, answer)]),
      ...(place.settings.quantities.length === 0 ? [] : [copiesCell(offer, answer, place)]),
      holdsCell(offer, answer),
    ],
  };
}

/** The offers as the table has them: the chosen one first, then by price. */
function inOrder({ offers, choice }) {
  const weight = (offer) => (isChosen(offer, choice) ? 0 : 1);
  return [...offers].sort((one, other) => weight(one) - weight(other) || compareAmounts(one.amount, other.amount));
}

/**
 * The table of the offers of an answer, labelled by the heading with that id. `place` has the settings, the reports on
 * messages, and `addressWith`, which gives the address of the same question with one part changed.
 */
export function offersTable(heading, answer, place) {
  const { question, choice } = answer;
  const price = say(`article.price.${kindOf(question.type)}`, { copies: copiesInWords(question.quantity) });
  const amount = (name) => ({ name, className: "amount" });
  const columns = [
    say("article.wholesaler"),
    say("article.availability"),
    amount(price),
    ...(choice === null ? [] : [amount(say("article.difference"))]),
    ...(place.settings.quantities.length === 0 ? [] : [say("article.byCopies")]),
    say("article.holds"),
  ];
  return table(heading, columns, inOrder(answer).map((offer) => rowOf(offer, answer, place)));
}
