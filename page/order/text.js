// The text of an order list: its lines, its rows, and the page's own changes.

import { withoutAddOn } from "../text/isbn.js";
import { isLikeIsbn, MOST_COPIES, readLine } from "./line.js";

/** The lines of a text as `readLine` has them, each with its `text` and `number`, from 1. */
export function linesOf(text) {
  return text.split("\n").map((line, at) => ({ ...readLine(line), text: line, number: at + 1 }));
}

const ofKind = (kind) => (lines) => lines.filter((line) => line.kind === kind);

export const goodOf = ofKind("good");
export const markedOf = ofKind("marked");

/** The struck lines with something like an ISBN: they are in no order. */
export const struckBooks = (lines) => ofKind("struck")(lines).filter(({ text }) => isLikeIsbn(text));

/**
 * The rows of good lines, one for each ISBN and wholesaler, in the order of the text: `key`, `isbn`, `series`, the sum
 * of its `copies`, its `lines` and their `note`.
 */
export function rowsOf(lines) {
  const rows = new Map();
  for (const line of goodOf(lines)) {
    const { isbn, series } = line;
    const key = `${isbn}@${series ?? ""}`;
    if (!rows.has(key)) rows.set(key, { key, isbn, series, copies: 0, lines: [], note: "" });
    const row = rows.get(key);
    row.copies += line.copies;
    row.lines.push(line);
    row.note = [row.note, line.note].filter((note) => note !== "").join(", ");
  }
  return [...rows.values()];
}

/** The text with more lines at its end. */
export function withLines(text, lines) {
  return `${[text.trimEnd(), ...lines].filter((line) => line !== "").join("\n")}\n`;
}

/** The text with some lines replaced, as `change` gives them. */
function changed(text, change) {
  return linesOf(text).map((line) => change(line)).join("\n");
}

/** The text with more copies of a scanned or added book: in the last line of that ISBN, or in a new line. */
export function withMore(text, code, copies = 1) {
  const isbn = withoutAddOn(code);
  const line = goodOf(linesOf(text)).findLast((each) => each.isbn === isbn);
  const sum = copies + (line?.copies ?? 0);
  if (line === undefined || sum > MOST_COPIES) return withLines(text, [`${isbn} ${copies}`]);
  const more = line.text.slice(0, line.start) + sum + line.text.slice(line.end);
  return withLines(changed(text, ({ number, text: old }) => (number === line.number ? more : old)), []);
}

/** The text with the lines of those numbers struck out: they stay, behind `#`. */
export function struck(text, numbers) {
  return changed(text, ({ number, text: old }) => (numbers.includes(number) ? `# ${old}` : old));
}

/** A marked line of one ISBN as a good one with so many copies; the words beside the ISBN stay behind `#`. */
function goodLine({ text, bodyEnd, reason, isbn }, copies) {
  const [body, rest] = [text.slice(0, bodyEnd), text.slice(bodyEnd)];
  if (reason === "lone") return `${body} ${copies}${rest}`;
  const words = reason === "more" ? body.trim() : "";
  const sign = words === "" || rest.includes("#") ? "" : "#";
  return [isbn, copies, rest.trim(), sign, words].filter((part) => part !== "").join(" ");
}

/** The text with so many copies in the marked line of that number, which has one ISBN. */
export function withCopies(text, number, copies) {
  return changed(text, (line) => (line.number === number ? goodLine(line, copies) : line.text));
}

/** The text with one copy in each line that is an ISBN alone. */
export function withOneCopy(text) {
  return changed(text, (line) => (line.reason === "lone" ? goodLine(line, 1) : line.text));
}

/** The text with `series` as the wholesaler of a row, or, if `undefined`, the one that the shop's rules take. */
export function withSeries(text, { lines }, series) {
  const numbers = lines.map(({ number }) => number);
  return changed(text, ({ number, text: old, bodyEnd, note }) => {
    if (!numbers.includes(number)) return old;
    const parts = [old.slice(0, bodyEnd), ...(series === undefined ? [] : [`@${series}`])];
    return [...parts, ...(note === "" ? [] : [`# ${note}`])].join(" ");
  });
}
