// The recommended price of a book, the margin of a net price, and net prices that are far from it or from other offers:
// a sign that a feed is wrong.

import { compareAmounts, isNothing, money, times } from "../text/amounts.js";
import { keyOf } from "../desk/offers.js";
import { kindOf } from "../desk/price-types.js";
import { formatter, say } from "../text/wording.js";

/** The recommended price of an offer: its own, or its wholesaler's, or another one's. */
function retailOf(retail, offer) {
  const priced = (retail ?? []).filter(({ amount }) => amount !== null);
  const found = priced.find((other) => keyOf(other) === keyOf(offer))
    ?? priced.find(({ series }) => series === offer.series)
    ?? priced[0];
  return found?.amount;
}

/** The recommended price of an offer and the margin, in words; empty without one, or without a net price. */
export function retailInWords(retail, offer, { type, currency }) {
  const found = kindOf(type) === "net" ? retailOf(retail, offer) : undefined;
  if (found === undefined || isNothing(found)) return [];
  const share = 1 - Number(offer.amount) / Number(found);
  const margin = formatter(Intl.NumberFormat, { style: "percent" }).format(share);
  return [say("article.retail", { retail: money(found, currency), margin })];
}

// No wholesaler asks less than a fifth of the recommended price, or of the next offer's.
const FAR = 5;

/**
 * Why the net price of an offer may be wrong: `retail`, the recommended price, if it is above that or below a fifth of
 * it; `next`, the least price of other offers, if it is below a fifth of that; else `undefined`.
 */
export function farOf(offer, { offers, retail, type }) {
  if (kindOf(type) !== "net") return undefined;
  const found = retailOf(retail, offer);
  const isBelow = (amount) => compareAmounts(times(offer.amount, FAR), amount) < 0;
  if (found !== undefined && (isBelow(found) || compareAmounts(offer.amount, found) > 0)) return { retail: found };
  const others = offers.filter((other) => other.amount !== null && keyOf(other) !== keyOf(offer));
  const [next] = others.map(({ amount }) => amount).sort(compareAmounts);
  return next !== undefined && isBelow(next) ? { next } : undefined;
}

/** The same in words. */
export function farInWords(far, { amount }, currency) {
  const [[name, other]] = Object.entries(far);
  const side = name === "next" ? "next" : compareAmounts(amount, other) > 0 ? "retailAbove" : "retailBelow";
  return say(`article.far.${side}`, { amount: money(amount, currency), other: money(other, currency) });
}
