// Whatever is pasted, the orders are the sum of the text's good lines, and no line is lost or added. The texts are
// drawn by a seed; the way they were made gives the expected values.

import assert from "node:assert/strict";
import { test } from "node:test";

import { isTable, parse, SEPARATORS, separatorIn, taken, widthOf } from "../page/order/csv-table.js";
import { goodOf, linesOf, markedOf, rowsOf, struck, struckBooks, withCopies, withLines, withMore, withOneCopy } from "../page/order/text.js";

const SEED = Number(process.env.SEED ?? 20261130);
const TEXTS = Number(process.env.TEXTS ?? 1000);

/** Numbers from 0 to below 1, the same ones for the same seed (mulberry32). */
function* numbers(seed) {
  for (let state = seed; ; ) {
    state = (state + 0x6d2b79f5) | 0;
    let mixed = Math.imul(state ^ (state >>> 15), 1 | state);
    mixed = (mixed + Math.imul(mixed ^ (mixed >>> 7), 61 | mixed)) ^ mixed;
    yield ((mixed ^ (mixed >>> 14)) >>> 0) / 4294967296;
  }
}

const drawn = numbers(SEED);
const below = (most) => Math.floor(drawn.next().value * most);
const oneOf = (list) => list[below(list.length)];
const many = (most, make) => Array.from({ length: below(most) }, make);

/** An ISBN-13 made of a number, with its check digit. */
function isbnAt(number) {
  const digits = `97801400${String(number).padStart(4, "0")}`;
  const sum = [...digits].reduce((total, digit, at) => total + Number(digit) * (at % 2 === 0 ? 1 : 3), 0);
  return digits + ((10 - (sum % 10)) % 10);
}

const hyphenated = (isbn) => isbn.replace(/^(...)(.)(..)(......)(.)$/, "$1-$2-$3-$4-$5");

/** A good line, with what it orders. */
function goodLine() {
  const [isbn, copies] = [isbnAt(below(12)), oneOf([1, 2, 3, 12, 9999])];
  const written = oneOf([isbn, hyphenated(isbn), `ISBN: ${isbn}`, `ISBN ${hyphenated(isbn)}`]);
  const body = oneOf([`${written} ${copies}`, `${written}\t${copies}`, `${copies}x ${isbn}`, `${isbn} x${copies}`, `${isbn} ${copies}x`]);
  const series = oneOf(["", "", "north", "south-2"]);
  const text = `${body}${series && ` @${series}`}${oneOf(["", " # Smith", " # 12 for 9780140009996 3"])}`;
  return { text, isbn, copies, series };
}

/** A line that orders nothing. */
function otherLine() {
  const isbn = isbnAt(below(12));
  return oneOf([
    `${isbn}`, `${isbn} 0`, `${isbn} 02`, `${isbn} 2,0`, `${isbn} 12345`, `${isbn} -3`, `${isbn} 3 4`, `${isbn};3`,
    `${isbn} 13 Reasons Why`, `${isbn} 3 @`, `${isbn} 3 @North`, `${isbn} ${isbnAt(below(12))} 3`, `3 copies of ${isbn}`,
    `${isbn.slice(0, 12)} 3`, `${isbn.slice(0, 12)}${(Number(isbn[12]) + 1) % 10} 3`, "9.78E+12 3", "Dear Sirs", "3", ",,",
    `£${isbn} 3`, `"${isbn}" 3`, `${isbn}3`, "4006381333931 2", "Qty: 3",
  ]);
}

/** The sums of texts of ISBN, copies and wholesaler. */
function sums(all) {
  const found = {};
  for (const { isbn, series = "", copies } of all) {
    const key = `${isbn}@${series ?? ""}`;
    found[key] = (found[key] ?? 0) + copies;
  }
  return found;
}

const orderedOf = (text) => sums(rowsOf(linesOf(text)));

test("what a text orders is the sum of its good lines, and every other line is marked", () => {
  for (let count = 0; count < TEXTS; count += 1) {
    const good = many(6, goodLine);
    const others = many(6, otherLine);
    const struckLines = many(3, () => `# ${oneOf([goodLine().text, "gone"])}`);
    const texts = [...good.map(({ text }) => text), ...others, ...struckLines, ...many(3, () => oneOf(["", "  ", "\u00a0"]))];
    const text = texts.sort(() => below(3) - 1).join("\n");
    assert.deepEqual(orderedOf(text), sums(good), text);
    assert.equal(markedOf(linesOf(text)).length, others.length, text);
    const numbersOf = markedOf(linesOf(text)).map(({ number }) => number);
    const after = struck(text, numbersOf);
    assert.deepEqual(orderedOf(after), sums(good), after);
    assert.equal(markedOf(linesOf(after)).length, 0, after);
    // A line with something like an ISBN is listed after saving.
    const books = [...others, ...struckLines].filter((line) => /\d{6}|E\+/.test(line));
    assert.equal(struckBooks(linesOf(after)).length, books.length, after);
  }
});

test("a scan is one copy more of that book, and nothing else", () => {
  for (let count = 0; count < TEXTS; count += 1) {
    const [text, isbn] = [[...many(5, goodLine).map((line) => line.text), ...many(5, otherLine)].join("\n"), isbnAt(below(12))];
    const [before, after] = [rowsOf(linesOf(text)), rowsOf(linesOf(withMore(text, isbn)))];
    const all = (rows, ofBook) => rows.filter((row) => (row.isbn === isbn) === ofBook).reduce((sum, row) => sum + row.copies, 0);
    assert.deepEqual([all(after, true), all(after, false)], [all(before, true) + 1, all(before, false)], text);
    assert.deepEqual(markedOf(linesOf(withMore(text, isbn))).length, markedOf(linesOf(text)).length, text);
  }
});

test("an ISBN alone is of one copy by a button alone", () => {
  for (let count = 0; count < TEXTS; count += 1) {
    const [good, lone] = [many(5, goodLine), many(5, () => ({ isbn: isbnAt(below(12)), copies: 1 }))];
    const others = many(5, otherLine).filter((line) => !/^\d{13}$/.test(line));
    const lines = [...others, ...good.map((line) => line.text), ...lone.map(({ isbn }) => oneOf([isbn, `${isbn} # two`]))];
    const after = withOneCopy(lines.join("\n"));
    assert.deepEqual(orderedOf(after), sums([...good, ...lone]), after);
    assert.deepEqual(after.split("\n").slice(0, others.length).filter((line) => line !== ""), others);
  }
});

test("a marked line of one ISBN has the copies that the buyer gives it, and no other line changes", () => {
  for (let count = 0; count < TEXTS; count += 1) {
    const texts = [isbnAt(1), ...many(4, otherLine), ...many(4, () => goodLine().text)].sort(() => below(3) - 1);
    const { number } = oneOf(markedOf(linesOf(texts.join("\n"))).filter(({ isbn }) => isbn !== undefined));
    const after = withCopies(texts.join("\n"), number, "7").split("\n");
    assert.deepEqual(after.filter((_, at) => at !== number - 1), texts.filter((_, at) => at !== number - 1));
    const [isbn] = texts[number - 1].match(/\d{13}/);
    assert.deepEqual(orderedOf(after[number - 1]), { [`${isbn}@`]: 7 }, after[number - 1]);
  }
});

test("what may be an ISBN is like one, whatever stands beside it", () => {
  const likes = ["0140000012", "9.78E+12", "Fax 978014000001", "+ 0140328728 3", "+3 0140328728", "The Black Phone 0140328728 3"];
  const others = ["13 Reasons Why", "Tel. 1234-567", "Best wishes, Ann"];
  assert.deepEqual(struckBooks(linesOf([...likes, ...others].map((text) => `# ${text}`).join("\n"))).map(({ text }) => text.slice(2)), likes);
});

const quoted = (cell, separator) => (
  cell.includes(separator) || cell.startsWith('"') || below(5) === 0 ? `"${cell.replaceAll('"', '""')}"` : cell
);

/** A row of a table of an ISBN, a title, copies and stock, with what it orders; `undefined` if it orders nothing. */
function row(separator) {
  const isbn = isbnAt(below(12));
  const copies = oneOf(["1", "3", "12", "0", "", "2,0", "2 Stk", "-1", "007", "12345"]);
  const book = oneOf([isbn, isbn, hyphenated(isbn), `="${isbn}"`, `'${isbn}`, `${isbn} 2`, isbn.slice(0, 12), "", "9.78E+12"]);
  const title = oneOf(["Catch, 22", 'The "Best"', 'A "B"; C', 'A "B", C', "A; B", "13 Reasons Why", `${isbnAt(1)} 3`, "# 1 hit", "mail@north.example", ""]);
  const cells = [book, title, copies, "40"].slice(0, oneOf([4, 4, 4, 4, 3, 2]));
  const isOrder = cells.length === 4 && /^(1|3|12)$/.test(copies) && [isbn, hyphenated(isbn), `="${isbn}"`, `'${isbn}`].includes(book);
  const isZero = cells.length === 4 && copies === "0" && book !== "" && book.replace(/\D/g, "") === isbn && !book.includes(" ");
  const isEnd = cells.length === 4 && copies === "2 Stk" && book === "" && !title.startsWith("97");
  return { text: cells.map((cell) => quoted(cell, separator)).join(separator), isbn, copies: Number(copies), isOrder, isZero, isEnd };
}

test("of a table each row is a line, one of 0 copies that is counted, or its heading", () => {
  for (let count = 0; count < TEXTS; count += 1) {
    const separator = oneOf(SEPARATORS);
    const all = Array.from({ length: 14 }, () => row(separator)).filter(({ text }) => /[^\s,;"]/.test(text));
    const rows = parse(["ISBN", "Title", "Order", "Stock"].join(separator) + "\n" + all.map(({ text }) => text).join("\n"), separator);
    // A row with a word for its copies, and no book, is the heading of another table.
    const [end] = [all.findIndex(({ isEnd }) => isEnd), all.length].filter((at) => at >= 0);
    const whole = all.slice(0, end);
    if (widthOf(rows) !== 4) continue;
    const { lines, zeros, rest } = taken(rows, { isbn: 0, copies: 2, notes: oneOf([[], [1], [1, 3]]) });
    const text = withLines("", lines);
    const told = JSON.stringify([whole.map((each) => each.text), text]);
    assert.deepEqual(orderedOf(text), sums(whole.filter(({ isOrder }) => isOrder)), told);
    assert.equal(zeros, whole.filter(({ isZero }) => isZero).length, told);
    assert.deepEqual([rest.length, lines.length + zeros], [all.length - end, end], told);
    const kinds = lines.length === 0 ? [] : linesOf(text.trimEnd()).map(({ kind }) => kind);
    assert.deepEqual([...new Set(kinds)].filter((kind) => !["good", "marked"].includes(kind)), [], told);
  }
});

test("of whatever signs, nothing is ordered that no line or row has", () => {
  const signs = [..."0123456789,;\t\"'#@x -\n\r=", isbnAt(1), isbnAt(2), `${isbnAt(3)} 3`, "\n", "\n", ";"];
  for (let count = 0; count < TEXTS; count += 1) {
    const text = many(60, () => oneOf(signs)).join("").replace(/\r\n?/g, "\n");
    const lines = linesOf(text);
    assert.equal(lines.map((line) => line.text).join("\n"), text);
    for (const line of goodOf(lines)) assert.ok(line.text.replace(/[- ]/g, "").includes(line.isbn) && line.text.includes(line.copies), text);
    const rows = parse(text, separatorIn(text));
    if (!isTable(text) || widthOf(rows) < 2) continue;
    const { lines: made, zeros, rest } = taken(rows, { isbn: 0, copies: 1, notes: [] });
    for (const line of goodOf(linesOf(made.join("\n")))) {
      const cells = rows.map((each) => each.cells.map((cell) => cell.replace(/[-'=" ]/g, "")));
      assert.ok(cells.some(([isbn, copies]) => isbn === line.isbn && Number(copies) === line.copies), text);
    }
    assert.ok(made.length + zeros + rest.length >= rows.length - 1, text);
  }
});
