// The offers of a day, as the desk answers them.

import { element } from "../text/elements.js";
import { undirected } from "../text/said.js";
import { wordsOfCode } from "../text/wording.js";

/** The key of an offer. */
export function keyOf({ series, reference, place }) {
  return JSON.stringify([series, reference, place]);
}

/** The availability of an offer, in words. */
export const availabilityOf = ({ availability: code }) => wordsOfCode("availabilities", code) ?? code;

/** The same after a dot, whose colour shows from afar what is in stock. */
export function availabilityDot(offer) {
  return element("span", { class: `dot from-${offer.availability}` }, availabilityOf(offer));
}

/** Whether no offer has a price. */
export function areUnpriced(offers) {
  return offers.every(({ amount }) => amount === null);
}

/** The reference of an offer, in any script, with its place if that is not the first. */
export function referenceOf({ reference, place }) {
  return element("bdi", {}, place === 1 ? undirected(reference) : `${undirected(reference)} (${place})`);
}

/** Whether an answer to the choice and one about the offers are of one moment. */
export function agree(choice, offers) {
  if (choice === null) return true;
  return offers.some((offer) => keyOf(offer) === keyOf(choice) && offer.amount === choice.amount);
}
