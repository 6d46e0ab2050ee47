// What the page asks the desk about a book. Independent questions are asked at once.

import { today } from "../text/days.js";
import { dayKeys, rangeKeys } from "../text/fields.js";
import { agree, keyOf } from "./offers.js";
import { ask } from "./questions.js";

// How often the price and the choice are asked until both are of one moment.
const TRIES = 3;

// How many books of a list are asked about at once, over a web server and a network.
const AT_ONCE = 8;

const askOfDay = (what, question, signal, watch) =>
  ask(`articles/${question.isbn}/${what}`, dayKeys(question), signal, watch);

/** The offers and the choice of a day, with the `time` of the answer; or a `refusal`. */
export async function askDay(question, signal, watch) {
  for (let tries = 1; ; tries += 1) {
    const outcomes = await Promise.all(["price", "choice"].map((what) => askOfDay(what, question, signal, watch)));
    const refusal = outcomes.find(({ kind }) => kind !== "answer");
    if (refusal !== undefined) return { refusal };
    const [{ offers }, { choice }] = outcomes.map(({ body }) => body);
    // A message between the two questions may have changed the price.
    if (tries === TRIES || agree(choice, offers)) return { question, offers, choice, time: new Date() };
  }
}

/** The calendar of a range, or a refusal. */
export function askCalendar(question, signal, watch) {
  return ask(`articles/${question.isbn}/calendar`, rangeKeys(question), signal, watch);
}

/** The offers of a day for another type or the like; none if the desk refuses. */
export async function askOtherwise(question, changes, signal, watch) {
  const price = await askOfDay("price", { ...question, ...changes }, signal, watch);
  return price.kind === "answer" ? price.body.offers : [];
}

/** The offers at each quantity, as `quantity` and `offers`, in order. */
export async function askCopies({ question, offers }, quantities, signal, watch) {
  const asked = Number(question.quantity);
  const all = [...new Set([...quantities, asked])].sort((one, other) => one - other);
  return Promise.all(all.map(async (quantity) => {
    if (quantity === asked) return { quantity, offers };
    return { quantity, offers: await askOtherwise(question, { quantity: String(quantity) }, signal, watch) };
  }));
}

/** Asks for each item, a few at once. */
export async function eachOf(items, askFor) {
  const rest = items.values();
  const worker = async () => {
    for (const item of rest) await askFor(item);
  };
  await Promise.all(Array.from({ length: AT_ONCE }, worker));
}

/** The shop's usual question, for a row of an order list. */
function questionOf({ isbn, copies }, { country, currency, type }) {
  return { isbn, day: today(), country, currency, type, quantity: String(copies) };
}

/** The same as `askDay` for a row, and the recommended prices (`retail`) if desk.json has their type. */
export async function askRow(row, { settings, signal, watch }) {
  const { retailType, type } = settings;
  const question = questionOf(row, settings);
  const isOther = retailType !== "" && retailType !== type;
  const [day, retail] = await Promise.all([
    askDay(question, signal, watch),
    isOther ? askOtherwise(question, { type: retailType }, signal, watch) : [],
  ]);
  return { ...day, retail };
}

/** Whether what a row orders is as it was answered before (`isSame`), or a `refusal`. */
export async function askAgain(row, { offer }, { settings, signal, watch }) {
  const outcome = await askOfDay(row.series === undefined ? "choice" : "price", questionOf(row, settings), signal, watch);
  if (outcome.kind !== "answer") return { refusal: outcome };
  const { offers, choice } = outcome.body;
  const now = offers === undefined ? choice : offers.find((other) => keyOf(other) === keyOf(offer));
  const parts = (found) => [keyOf(found), found.amount, found.availability].join(" ");
  return { isSame: now !== undefined && now !== null && parts(now) === parts(offer) };
}
