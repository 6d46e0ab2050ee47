// How an order leaves the page: as a file, on the clipboard, on paper. The page sends nothing.

import { money, times } from "../text/amounts.js";
import { inWords, stamp, today } from "../text/days.js";
import { element, found, table } from "../text/elements.js";
import { undirected } from "../text/said.js";
import { wholesalerOf } from "../desk/settings.js";
import { inDigits, say, wordsOfCode } from "../text/wording.js";
import { ABOVE, formOf, textIn, withSign } from "./csv-form.js";
import { sumsOf } from "./answers.js";

const ON_PAPER = "order-on-paper";
const AMOUNTS = ["copies", "price", "sum"];

// How long a browser may take to begin with a file.
const KEPT = 60_000;

const accountOf = (settings, series) => settings.series.find(({ name }) => name === series)?.account ?? "";

/** The cells of a row by column, with amounts as the desk writes them, and the order's reference (`order`). */
function cellsOf({ row, state: { offer } }, { settings, order }) {
  return {
    isbn: row.isbn,
    copies: String(row.copies),
    price: offer.amount,
    sum: times(offer.amount, row.copies),
    currency: settings.currency,
    reference: undirected(offer.reference),
    note: row.note,
    order,
    account: accountOf(settings, offer.series),
    date: today(),
    shop: settings.shop,
    address: settings.address,
  };
}

/** The text of the file of a series. */
export function fileText(rows, series, context) {
  const form = formOf(context.settings, series);
  const heads = form.columns.map((name) => say(`order.columns.${name}`));
  return textIn(form, heads, rows.map((each) => cellsOf(each, context)));
}

/** Gives the browser the file of a series; returns its name, which no other order has. */
export function download(rows, series, context) {
  const name = say("order.fileName", { time: stamp(), series });
  const url = URL.createObjectURL(new Blob([fileText(rows, series, context)], { type: "text/csv" }));
  const link = element("a", { href: url, download: name });
  document.body.append(link);
  link.click();
  link.remove();
  setTimeout(() => URL.revokeObjectURL(url), KEPT);
  return name;
}

/** An order as lines of ISBN and copies, like a list. */
export const linesToPaste = (rows) => rows.map(({ row }) => `${row.isbn}\t${row.copies}\n`).join("");

/** The head of a wholesaler's order: to whom and from whom it goes, and what its prices are. */
function paperHead(series, { settings }) {
  const { shop, address, currency, type } = settings;
  const account = accountOf(settings, series);
  const texts = { to: wholesalerOf(settings, series), account, shop, address, date: inWords(today()) };
  const lines = Object.entries(texts).filter(([, text]) => text !== "").map(([name, text]) => (
    say(`order.onPaper.${name}`, { text })
  ));
  const prices = say("order.onPaper.prices", { currency, type: wordsOfCode("priceTypes", type) ?? type });
  return [...lines, prices].map((line) => element("p", {}, line));
}

/** The row of the total: copies and sum, each in its column. */
function totalRow(columns, { copies, amount }, { settings }) {
  const cells = { copies: inDigits(copies), sum: money(amount, settings.currency) };
  const texts = columns.map((name) => cells[name] ?? "");
  if (texts[0] === "") texts[0] = say("order.onPaper.total");
  return { cells: texts.map((text) => [text]), className: "total" };
}

/** Prints a wholesaler's order, with the columns of its form, and nothing of another one. */
export function printOrder(rows, series, context) {
  const form = formOf(context.settings, series);
  const columns = form.columns.filter((name) => !ABOVE.includes(name));
  const heads = columns.map((name) => ({
    name: say(`order.columns.${name}`), className: AMOUNTS.includes(name) ? "amount" : undefined,
  }));
  const lines = rows.map((each) => {
    const cells = withSign(cellsOf(each, context), form.decimal);
    return { cells: columns.map((name) => [element("bdi", {}, cells[name])]) };
  });
  const { all } = sumsOf(rows);
  found("paper").replaceChildren(
    element("h1", { id: "paper-order" }, say("order.onPaper.heading", { order: context.order }).trim()),
    ...paperHead(series, context),
    table("paper-order", heads, [...lines, totalRow(columns, all, context)]),
  );
  document.body.classList.add(ON_PAPER);
  window.addEventListener("afterprint", () => document.body.classList.remove(ON_PAPER), { once: true });
  window.print();
}
