// The desk's answer about a row of an order list: what is ordered, why a person should look, and sums.

import { compareAmounts, difference, isNothing, sumOf, times } from "../text/amounts.js";
import { today } from "../text/days.js";
import { farOf } from "../article/retail.js";
import { keyOf } from "../desk/offers.js";

// More copies of a book have to be confirmed.
const MANY = 50;

/** The key of an answer: the book, the number of copies, and the day. */
export const askedOf = ({ isbn, copies }) => `${isbn} ${copies} ${today()}`;

/** The key under which a changed answer is remembered. */
export const changeOf = ({ key, copies }) => `${key} ${copies}`;

export const isPriced = ({ amount }) => amount !== null;

/** The offer that the rules take, or that of the wholesaler chosen by hand: `offer`, or a `need`. */
function offerOf({ series }, { choice, offers }) {
  if (offers.length === 0) return { need: "noOffers" };
  const chosen = choice === null ? undefined : offers.find((offer) => keyOf(offer) === keyOf(choice));
  if (series === undefined) {
    if (chosen !== undefined) return { offer: chosen };
    return { need: offers.some(isPriced) ? "notChosen" : "unpriced" };
  }
  const own = offers.filter((offer) => offer.series === series);
  const priced = own.filter(isPriced);
  if (own.length === 0) return { need: "handLacks" };
  if (priced.length === 0) return { need: "unpriced" };
  if (chosen !== undefined && chosen.series === series) return { offer: chosen };
  return priced.length === 1 ? { offer: priced[0] } : { need: "handSeveral" };
}

/** Why a person should look at these copies of this offer: the key under which it is confirmed. */
export function confirmKey(need, { copies }, offer) {
  return JSON.stringify([need, copies, keyOf(offer), offer.amount]);
}

/** What a person may look at and confirm; all else is in no order. */
export const CONFIRMABLE = ["changed", "free", "far", "many"];

/**
 * The state of a row: `offer`, which is ordered, if any, and `need`, why a person should look, if so. `shop` has the
 * price `type`; what was `confirmed` has no need.
 */
export function stateOf(row, answer, { type, confirmed, changes }) {
  if (answer === undefined) return {};
  if (answer.refusal !== undefined) return { need: "refused" };
  const { offer, need } = offerOf(row, answer);
  if (offer === undefined) return { need };
  const needs = {
    changed: changes.has(changeOf(row)),
    free: isNothing(offer.amount),
    far: farOf(offer, { ...answer, type }) !== undefined,
    many: row.copies > MANY,
  };
  const open = CONFIRMABLE.find((reason) => needs[reason] && !confirmed.has(confirmKey(reason, row, offer)));
  return { offer, need: open };
}

/** The cheapest offer of the same answer, if it is cheaper than the ordered one, with what it saves. */
export function savingOf({ offers }, ordered, copies) {
  const [least] = offers.filter(isPriced).sort((one, other) => compareAmounts(one.amount, other.amount));
  if (compareAmounts(least.amount, ordered.amount) >= 0) return undefined;
  return { offer: least, amount: times(difference(ordered.amount, least.amount), copies) };
}

/** Who offers a book without a price of the requested type. */
export function unpricedOf({ offers }) {
  const priced = offers.filter(isPriced).map(({ series }) => series);
  return [...new Set(offers.map(({ series }) => series))].filter((series) => !priced.includes(series));
}

function summed(rows) {
  return {
    books: rows.length,
    copies: rows.reduce((count, { row }) => count + row.copies, 0),
    amount: sumOf(rows.map(({ row, state }) => times(state.offer.amount, row.copies))),
  };
}

/** The sums of ordered rows: of each series, in order, and of all. */
export function sumsOf(rows) {
  const names = [...new Set(rows.map(({ state }) => state.offer.series))];
  const ofSeries = (name) => summed(rows.filter(({ state }) => state.offer.series === name));
  return { bySeries: names.map((series) => ({ series, ...ofSeries(series) })), all: summed(rows) };
}
