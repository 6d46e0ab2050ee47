// The answer for a day: which book it is, what to do, what to consider, and the offers.

import { money } from "../text/amounts.js";
import { inWords, timeInWords } from "../text/days.js";
import { element, found, refill } from "../text/elements.js";
import { messagesNotes } from "../missing/reports.js";
import { kindOf } from "../desk/price-types.js";
import { ruleInWords } from "../desk/rules.js";
import { wholesalerOf } from "../desk/settings.js";
import { titleSaid, titlesOfOffers } from "../desk/titles.js";
import { keyOf } from "../desk/offers.js";
import { codeInWords, say, sayCount } from "../text/wording.js";
import { catalogueLink } from "./catalogue.js";
import { offersTable } from "./offers-table.js";
import { farInWords, farOf } from "./retail.js";
import { conditionsOf, detailsOf, kindOfAnswer, sentenceOf, sumInWords } from "./words.js";

/** Warns that the chosen price is far from the recommended one, or from the next offer's. */
function farNotes({ offers, choice, retail, question }) {
  const far = choice === null ? undefined : farOf(choice, { offers, retail, type: question.type });
  return far === undefined ? [] : [farInWords(far, choice, question.currency)];
}

/** How long the price of the chosen offer holds, if it ends. */
function untilNotes({ choice, ahead, question }, settings) {
  const until = choice === null ? undefined : ahead?.get(keyOf(choice));
  if (until?.last === undefined) return [];
  const [last, from] = [inWords(until.last), inWords(until.from)];
  const wholesaler = wholesalerOf(settings, choice.series);
  if (until.then === null) return [say("article.untilNone", { last, from, wholesaler })];
  return [say("article.until", { last, from, wholesaler, amount: money(until.then, question.currency) })];
}

/** Special net prices of wholesalers, beside those of the requested type. */
function specialNotes({ special = [], question }, settings) {
  return special.map(({ type, series, amount }) => say("article.special", {
    wholesaler: wholesalerOf(settings, series),
    amount: money(amount, question.currency),
    type: codeInWords("priceTypes", type),
  }));
}

/** Notes that wholesalers' recommended prices differ. */
function retailNotes({ retail = [], question }, settings) {
  const priced = retail.filter(({ amount }) => amount !== null);
  if (new Set(priced.map(({ amount }) => amount)).size < 2) return [];
  const all = priced.map(({ series, amount }) => `${wholesalerOf(settings, series)} ${money(amount, question.currency)}`);
  return [say("article.retailsDiffer", { all: [...new Set(all)].join(", ") })];
}

export class Answer {
  #place;
  #shown;

  /** `place` has the settings, the reports, and `addressWith`, which changes a part of the question. */
  constructor(place) {
    this.#place = place;
    place.reports.subscribe(() => this.#draw());
  }

  clear(words = "") {
    this.#shown = undefined;
    found("verdict").className = "verdict";
    found("article-status").replaceChildren(words);
    found("answer-time").textContent = "";
    found("to-list").hidden = true;
    found("answer").hidden = true;
    for (const id of ["title", "notes", "offers", "rules-list"]) found(id).replaceChildren();
  }

  /** Shows the offers and the choice; `before` is the sentence that held until it changed. */
  show(answer, before) {
    this.#shown = answer;
    if (before !== undefined) {
      answer.changed = say("article.changed", { time: timeInWords(answer.time), sentence: before });
    }
    found("in-list").textContent = "";
    this.noteTime(answer.time);
    this.#draw();
  }

  /** Adds what has become known of the shown answer: `copies`, `ahead`, `retail`, `special`, `titles`. */
  add(parts) {
    Object.assign(this.#shown, parts);
    this.#draw();
  }

  /** The sentence and the sum that are shown. */
  inWords() {
    return [this.#sentence(), sumInWords(this.#shown)].filter((words) => words !== "").join(": ");
  }

  /** Shows when the answer was given. */
  noteTime(time) {
    found("answer-time").textContent = say("article.asOf", { time: timeInWords(time) });
  }

  #sentence() {
    const { settings, reports } = this.#place;
    return sentenceOf(this.#shown, settings, reports.doubtful());
  }

  #draw() {
    if (this.#shown === undefined) return;
    this.#drawTitle();
    this.#drawSentence();
    this.#drawNotes();
    this.#drawOffers();
    this.#drawRules();
  }

  #drawTitle() {
    const { titles, offers, choice } = this.#shown;
    const said = titles === undefined ? undefined : titlesOfOffers(titles, offers, choice ?? undefined);
    refill(found("title"), ...(said === undefined ? [] : titleSaid(said, this.#place.settings)));
  }

  /** The details below the sentence. */
  #details() {
    const link = catalogueLink(this.#shown.question.isbn, say("article.inCatalogue"), this.#place.settings);
    const parts = [...detailsOf(this.#shown), ...link];
    return element("p", { class: "details" }, ...parts.flatMap((part) => [" · ", part]).slice(1));
  }

  #drawSentence() {
    const { settings } = this.#place;
    const kind = kindOfAnswer(this.#shown);
    // The button puts what the sentence says to buy on the order list.
    found("to-list").hidden = kind !== "net";
    found("add-to-list").textContent = sayCount("article.toList", Number(this.#shown.question.quantity));
    const conditions = conditionsOf(this.#shown.question, settings);
    const sum = sumInWords(this.#shown);
    const parts = [
      ...(conditions === "" ? [] : [element("span", { class: "unusual" }, conditions), " "]),
      this.#sentence(),
    ];
    const sentence = [element("strong", { class: "sentence" }, ...parts)];
    if (sum !== "") sentence.push(" ", element("strong", { class: "sum" }, sum));
    found("verdict").className = `verdict ${kind}`;
    refill(found("article-status"), element("p", { class: "decision" }, ...sentence), this.#details());
  }

  #drawNotes() {
    const { settings, reports } = this.#place;
    const answer = this.#shown;
    const isRetail = answer.choice !== null && kindOf(answer.question.type) === "retail";
    const offering = [...new Set(answer.offers.map((offer) => offer.series))];
    const series = offering.length === 0 ? reports.doubtful() : offering;
    const notes = [
      ...(answer.changed === undefined ? [] : [answer.changed]),
      ...(isRetail ? [say("article.notPaid")] : []),
      ...farNotes(answer),
      ...untilNotes(answer, settings),
      ...specialNotes(answer, settings),
      ...retailNotes(answer, settings),
    ].map((words) => [words]);
    const all = [...notes, ...messagesNotes(series, reports, settings)];
    refill(found("notes"), ...all.map((parts) => element("li", { class: "note" }, ...parts)));
  }

  #drawOffers() {
    const answer = this.#shown;
    found("answer").hidden = answer.offers.length === 0;
    if (answer.offers.length === 0) return;
    found("answer-heading").textContent = say("article.offers", { day: inWords(answer.question.day) });
    // The focus stays at its link.
    const links = () => [...found("offers").querySelectorAll("a")];
    const at = links().indexOf(document.activeElement);
    refill(found("offers"), offersTable("answer-heading", answer, this.#place));
    if (at >= 0) links()[at]?.focus({ preventScroll: true });
  }

  /** The shop's rules, unfolded if none of them takes an offer. */
  #drawRules() {
    const { settings } = this.#place;
    const { rules } = settings;
    found("rules").hidden = rules === undefined;
    if (rules === undefined) return;
    if (kindOfAnswer(this.#shown) === "notChosen") found("rules").open = true;
    const chosen = this.#shown.choice?.rule;
    const classOf = (at) => (at + 1 === chosen ? "mark" : undefined);
    const items = rules.map((rule, at) => element("li", { class: classOf(at) }, ruleInWords(rule, settings)));
    refill(found("rules-list"), ...items);
  }
}
