// The form of a wholesaler's CSV file, from desk.json: columns, heading, separator and decimal sign.

import { formatter } from "../text/wording.js";

/** What the columns of a file may have. */
export const COLUMNS = [
  "isbn", "copies", "price", "sum", "currency", "reference", "note", "order", "account", "date", "shop", "address",
];

/** On paper this stands once above an order, and not in each row. */
export const ABOVE = ["currency", "order", "account", "date", "shop", "address"];

// The form for a wholesaler without one in desk.json.
const USUAL = ["isbn", "copies", "price", "sum", "currency", "reference", "order", "account", "date"];

const MARK = "\ufeff";
const LINE_END = "\r\n";
const AMOUNTS = ["price", "sum"];

// Where a spreadsheet sees a formula, full-width signs too: at the beginning of a cell, or of a part that another
// separator would make a cell.
const FORMULA = /(?<=^|[,;|])(?=[\s'"]*[=+\-@\uff1d\uff0b\uff0d\uff20])/g;

// Where some program may split a line.
const CUTS = /[",;|]/;

const areTexts = (value) => Array.isArray(value) && value.every((text) => typeof text === "string");
const areColumns = (value) => value.length > 0 && value.every((name) => COLUMNS.includes(name));

// What each key may have.
const RIGHT = {
  columns: (value) => areTexts(value) && areColumns(value),
  heading: (value, { columns }) => typeof value === "boolean" || (areTexts(value) && value.length === columns.length),
  separator: (value) => [",", ";", "|", "\t"].includes(value),
  decimal: (value, { separator }) => [".", ","].includes(value) && value !== separator,
};

/** The first key whose value is wrong; `undefined` if the form is right. */
export function wrongKey(value) {
  const form = Object(value);
  const isWrong = (key) => !Object.hasOwn(RIGHT, key) || !RIGHT[key](form[key], form);
  return ["columns", ...Object.keys(form)].find(isWrong);
}

/** The decimal sign of the page's language. */
function decimalSign() {
  const parts = formatter(Intl.NumberFormat).formatToParts(1.5);
  return parts.find(({ type }) => type === "decimal").value;
}

/** The complete form of a series' file. */
export function formOf(settings, series) {
  const { csv, account = "" } = settings.series.find(({ name }) => name === series) ?? {};
  const { decimal } = { decimal: decimalSign(), ...csv };
  const columns = USUAL.filter((name) => name !== "account" || account !== "");
  return { columns, heading: true, separator: decimal === "," ? ";" : ",", ...csv, decimal };
}

/** Whether a text begins like a formula, so that a file would have to change it. */
export function isFormula(text) {
  return text.search(FORMULA) === 0;
}

/** A text as a cell: on one line, in quotes if some program may split it, and never a formula. */
function cellOf(text) {
  const line = text.replace(/[\p{Cc}\p{Zl}\p{Zp}]+/gu, " ").trim();
  const safe = line.replace(FORMULA, "'");
  return CUTS.test(safe) ? `"${safe.replaceAll('"', '""')}"` : safe;
}

/** An amount of the desk with a decimal sign, and two decimals, or three if it needs them. */
const amountWith = (sign, amount) => amount.replace(/0$/, "").replace(".", sign);

/** Cells by column, with that decimal sign in amounts. */
export function withSign(cells, sign) {
  return Object.fromEntries(Object.entries(cells).map(([name, text]) => (
    [name, AMOUNTS.includes(name) ? amountWith(sign, text) : text]
  )));
}

/** The text of a file in a complete form, from the cells of each row by column; `heads` names the columns. */
export function textIn({ columns, heading, separator, decimal }, heads, rows) {
  const names = heading === true ? heads : heading;
  const lines = rows.map((cells) => withSign(cells, decimal)).map((cells) => columns.map((name) => cells[name]));
  const all = names === false ? lines : [names, ...lines];
  return MARK + all.map((line) => line.map(cellOf).join(separator) + LINE_END).join("");
}
