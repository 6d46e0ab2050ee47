// A pasted or opened table, which a buyer turns into lines of an order list: no heading is read, and no column guessed.

import { goodOf, linesOf } from "./text.js";
import { plain } from "../text/isbn.js";
import { isbnIn, isLikeIsbn, readLine } from "./line.js";

/** The separators of a row. */
export const SEPARATORS = ["\t", ";", ","];

const rowsIn = (text) => linesOf(text).filter(({ kind }) => kind !== "blank");

/** Whether a text is a table: most rows have a separator, and fewer than half are good lines. */
export function isTable(text) {
  const rows = rowsIn(text);
  const cut = rows.filter((row) => SEPARATORS.some((sign) => row.text.includes(sign)));
  return cut.length * 2 > rows.length && goodOf(rows).length * 2 < rows.length;
}

/** The separator that most rows have. */
export function separatorIn(text) {
  const rows = rowsIn(text);
  const countOf = (sign) => rows.filter((row) => row.text.includes(sign)).length;
  return SEPARATORS.reduce((best, sign) => (countOf(sign) > countOf(best) ? sign : best));
}

/** Where a quoted cell ends: behind the quote before a separator, the end of a line or of the text. */
function quoteEnd(text, start, separator) {
  const pattern = new RegExp(`"(?=\\n|$|[${separator}])`, "g");
  for (let at = start + 1; ; at = pattern.lastIndex) {
    pattern.lastIndex = at;
    const match = pattern.exec(text);
    if (match === null) return undefined;
    const [quotes] = /"*$/.exec(text.slice(start + 1, pattern.lastIndex));
    if (quotes.length % 2 === 1) return pattern.lastIndex;
  }
}

/** The cell at a place, and where it ends. */
function cellAt(text, start, separator) {
  const quoted = text[start] === '"' ? quoteEnd(text, start, separator) : undefined;
  if (quoted !== undefined) {
    const whole = text.slice(start + 1, quoted - 1).replaceAll('""', '"');
    return { cell: whole.replace(/\s*\n\s*/g, " ").trim(), isCut: whole.includes("\n"), end: quoted };
  }
  const length = text.slice(start).search(new RegExp(`[${separator}\\n]`));
  const end = length < 0 ? text.length : start + length;
  return { cell: text.slice(start, end).trim(), isCut: false, end };
}

/**
 * The rows of a text, each with its `text` and its `cells`. A row with a line break in a cell and something like an
 * ISBN `isUnsure`: a quote may never have been closed.
 */
export function parse(text, separator) {
  const rows = [];
  let [row, start] = [{ cells: [], isUnsure: false }, 0];
  for (let at = 0; at <= text.length; at += 1) {
    const { cell, isCut, end } = cellAt(text, at, separator);
    row.cells.push(cell);
    row.isUnsure ||= isCut && isLikeIsbn(cell);
    at = end;
    if (text[at] !== separator) {
      rows.push({ ...row, text: text.slice(start, at) });
      [row, start] = [{ cells: [], isUnsure: false }, at + 1];
    }
  }
  return rows.filter(({ cells }) => cells.some((cell) => cell !== ""));
}

/** How many cells most rows have. */
export function widthOf(rows) {
  const counts = new Map();
  for (const { cells } of rows) counts.set(cells.length, (counts.get(cells.length) ?? 0) + 1);
  return [...counts].reduce((best, each) => (each[1] > best[1] ? each : best), [0, 0])[0];
}

/** A cell without what a spreadsheet puts around digits that are a text. */
const bare = (cell) => plain(cell).replace(/^="(.*)"$/, "$1").replace(/^'/, "").trim();

/** A row as a marked line, whatever it has. */
const asMarked = (cells) => `${cells.join("; ")}${cells.length < 2 ? ";" : ""}`.replace(/[#@]/g, " ");

/** The line of a row, from its cells of the ISBN and the copies. */
function lineOf({ cells, isUnsure }, { isbn, copies, notes }) {
  const [book, count] = [bare(cells[isbn]), bare(cells[copies])];
  const note = notes.map((at) => cells[at]).filter((cell) => cell !== "").join(", ");
  const line = [book, count].filter((text) => text !== "").join(" ");
  const isSure = !isUnsure && isbnIn(book) !== undefined && /^\d+$/.test(count);
  const isRow = book !== "" && !isUnsure && !/[#@;]/.test(line);
  if (!isRow || (readLine(line).kind === "good" && !isSure)) return asMarked(cells);
  return note === "" ? line : `${line} # ${note}`;
}

const hasBook = ({ cells }) => cells.some(isLikeIsbn);

/**
 * The lines of a table, whose columns are given by their places: `isbn`, `copies`, and the `notes`. A row with letters
 * for its copies and without a book is a heading: the first row is skipped, unless its ISBN begins with digits; a later
 * one ends the table, and `rest` has the rows from there on. `zeros` counts rows with 0 copies.
 */
export function taken(rows, columns) {
  const width = widthOf(rows);
  const isWhole = ({ cells }) => cells.length === width;
  const isHeading = (row) => isWhole(row) && /\p{L}/u.test(row.cells[columns.copies]) && !hasBook(row);
  const begin = isHeading(rows[0]) && !/^\P{L}*\d|\d{3}/u.test(rows[0].cells[columns.isbn]) ? 1 : 0;
  const next = rows.findIndex((row, at) => at >= Math.max(begin, 1) && isHeading(row));
  const end = next < 0 ? rows.length : next;
  const isZero = (row) => isWhole(row) && !row.isUnsure && /^0+$/.test(bare(row.cells[columns.copies]))
    && isbnIn(bare(row.cells[columns.isbn])) !== undefined;
  const own = rows.slice(begin, end);
  const lines = own.filter((row) => !isZero(row))
    .map((row) => (isWhole(row) ? lineOf(row, columns) : asMarked(row.cells)));
  return { lines, zeros: own.filter(isZero).length, rest: rows.slice(end) };
}
