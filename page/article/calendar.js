// The calendar of prices over a year: a picture with a lane for each offer, whose bars are labelled.

import { bareMoney, money } from "../text/amounts.js";
import { dayInShort, fromDesk, inWords, lengthOf, plusDays } from "../text/days.js";
import { element, found } from "../text/elements.js";
import { availabilityOf, keyOf, referenceOf } from "../desk/offers.js";
import { wholesalerOf } from "../desk/settings.js";
import { say } from "../text/wording.js";

/** From a month before a day on, a year. */
export function yearAround(day) {
  return { from: plusDays(day, -30), until: plusDays(day, 335) };
}

/**
 * The span of an offer that has a day: its `amount`, or `null` without a price; its `last` day, and the amount `then`,
 * from the day `from` on, which are missing if the price holds to the end of the calendar. `undefined` if the calendar
 * does not have the day.
 */
export function holdsUntil({ spans }, day) {
  const at = spans.findIndex(({ first, last }) => fromDesk(first) <= day && day <= fromDesk(last));
  if (at < 0) return undefined;
  const [{ amount, last }, next] = [spans[at], spans[at + 1]];
  if (next === undefined) return { amount };
  return { amount, last: fromDesk(last), from: fromDesk(next.first), then: next.amount };
}

/** The bar of a span, as wide as its days; the chosen offer's, on the day asked for, stands out. */
function bar({ first, last, amount }, { currency, day }, isChosen) {
  const [from, until] = [fromDesk(first), fromDesk(last)];
  const days = { from: inWords(from), until: inWords(until) };
  const isNow = isChosen && from <= day && day <= until;
  const title = say(amount === null ? "calendar.gap" : "calendar.span", {
    amount: amount === null ? "" : money(amount, currency), ...days,
  });
  const short = element("span", { "aria-hidden": "true" }, amount === null ? "" : bareMoney(amount, currency));
  const className = amount === null ? "gap" : isNow ? "span chosen" : "span";
  const made = element("li", { class: className, title }, short, element("span", { class: "heard" }, title));
  made.style.flexGrow = lengthOf({ from, until });
  return made;
}

/** A line at the day asked for. */
function dayLine({ day, from, until }) {
  const line = element("li", { class: "day", "aria-hidden": "true" });
  line.style.left = `${((lengthOf({ from, until: day }) - 0.5) / lengthOf({ from, until })) * 100}%`;
  return line;
}

function lane(offer, { question, choice }, settings) {
  const isChosen = choice !== null && keyOf(offer) === keyOf(choice);
  const name = [wholesalerOf(settings, offer.series), " ", referenceOf(offer), `, ${availabilityOf(offer)}`];
  const bars = offer.spans.map((span) => bar(span, question, isChosen));
  return [
    element("p", { class: isChosen ? "lane-name chosen" : "lane-name" }, ...name),
    element("ul", { class: "lane" }, ...bars, dayLine(question)),
  ];
}

export function hideCalendar() {
  found("calendar").hidden = true;
  found("picture").replaceChildren();
}

/** Shows the `offers` of a calendar, its `question`, and the `choice` on the day asked for. */
export function showCalendar(calendar, settings) {
  const { from, until, day } = calendar.question;
  const ends = [from, until].map((end) => element("span", {}, dayInShort(end)));
  const lanes = calendar.offers.flatMap((offer) => lane(offer, calendar, settings));
  found("calendar-heading").textContent = say("calendar.titled", { from: inWords(from), until: inWords(until) });
  found("calendar-asked").textContent = say("calendar.legend", { day: inWords(day) });
  found("picture").replaceChildren(...lanes, element("div", { class: "axis" }, ...ends));
  found("calendar").hidden = false;
}
