// The orders of a list, one for each wholesaler: their sums, and how each leaves the page.

import { money } from "../text/amounts.js";
import { timeInWords } from "../text/days.js";
import { element, found, table } from "../text/elements.js";
import { keep, kept } from "../text/kept.js";
import { wholesalerOf } from "../desk/settings.js";
import { inDigits, say, sayCount } from "../text/wording.js";
import { sumsOf } from "./answers.js";

const WAYS = ["csv", "copy", "print"];

// How each wholesaler's order left the page since the list changed; the tab keeps that, like the list.
const KEY = "onixdesk-saved";
const saved = new Map(JSON.parse(kept(KEY) || "[]"));
let isReferenceUsed = false;

/** Nothing of another list has left the page. */
export function forgetSaved() {
  saved.clear();
  keep(KEY, "");
}

/** The buttons by which a wholesaler's order leaves the page, and how it did. */
function waysCell(series, { settings, save }) {
  const name = wholesalerOf(settings, series);
  const status = element("span", { role: "status", tabindex: "-1", "data-saved": series }, saved.get(series) ?? "");
  const buttons = WAYS.flatMap((way) => {
    const attributes = { type: "button", class: "small", "data-way": way, "data-series": series };
    const button = element("button", attributes, say(`order.ways.${way}`));
    button.setAttribute("aria-label", `${say(`order.ways.${way}`)}: ${name}`);
    button.addEventListener("click", () => save(way, series));
    return [button, " "];
  });
  return [...buttons, status];
}

/** Shows the orders of rows; the context has the `settings` and `save`, which gets a way and a series. */
export function showOrders(rows, context) {
  const { bySeries } = sumsOf(rows);
  const heads = ["wholesaler", "books", "copies", "sum", "save"].map((name) => ({
    name: say(`order.columns.${name}`), className: ["books", "copies", "sum"].includes(name) ? "amount" : "ways",
  }));
  const lines = bySeries.map(({ series, books, copies, amount }) => ({
    cells: [
      [wholesalerOf(context.settings, series)], [inDigits(books)], [inDigits(copies)],
      [money(amount, context.settings.currency)], waysCell(series, context),
    ],
  }));
  found("orders-table").replaceChildren(table("orders-heading", heads, lines));
  found("orders").hidden = false;
}

/** The next orders get another reference than those that have left the page. */
export function hideOrders() {
  if (isReferenceUsed) found("order-reference").value = "";
  isReferenceUsed = false;
  found("orders").hidden = true;
  found("orders-table").replaceChildren();
  found("saved").replaceChildren();
}

/** Says how a wholesaler's order left the page, and takes the focus, so that a second Enter saves nothing. */
export function tellSaved(series, words) {
  const status = document.querySelector(`[data-saved="${series}"]`);
  status.textContent = say("order.savedAt", { words, time: timeInWords(new Date()) });
  status.focus({ preventScroll: true });
  isReferenceUsed = true;
  saved.set(series, status.textContent);
  keep(KEY, JSON.stringify([...saved]));
}

/** Lists what is in no order: rows that nobody offers or no rule takes, and struck lines with an ISBN. */
export function showRest(rows, struck) {
  const texts = [
    ...rows.map(({ row }) => `${row.isbn} ${row.copies}`),
    ...struck.map(({ text }) => text.trim()),
  ];
  found("rest").hidden = texts.length === 0;
  found("rest-words").textContent = sayCount("order.rest", texts.length);
  found("rest-lines").replaceChildren(...texts.map((text) => element("li", {}, element("bdi", {}, text))));
}
