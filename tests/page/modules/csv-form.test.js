// Files for wholesalers, each in its own form. Expected values were written by hand.

import assert from "node:assert/strict";
import { test } from "node:test";

import { isFormula, wrongKey } from "../page/order/csv-form.js";
import { fileText } from "../page/order/saving.js";
import { speak } from "../page/text/wording.js";
import { today } from "../page/text/days.js";

const MARK = "\ufeff";

function row(isbn, copies, amount, more = {}) {
  const offer = { series: "north", reference: "R1", place: 1, availability: "21", amount, ...more.offer };
  return { row: { isbn, copies, note: more.note ?? "" }, state: { offer } };
}

/** The file of rows in a form, by the settings of a shop. */
function fileOf(csv, rows, { account, order = "" } = {}) {
  const series = [{ name: "north", words: "North Books", csv, account }];
  return fileText(rows, "north", { settings: { series, currency: "GBP", shop: "High Street", address: "York" }, order });
}

test("a wholesaler without a form gets what an order needs, with the mark by which spreadsheets know UTF-8", () => {
  assert.equal(
    fileOf(undefined, [row("9780140000016", 2, "9.990")], { order: "2026-1" }),
    `${MARK}ISBN,Copies,Price,Sum,Currency,Reference,Order reference,Date\r\n` +
      `9780140000016,2,9.99,19.98,GBP,R1,2026-1,${today()}\r\n`,
  );
});

test("columns, heading and signs are those of the form", () => {
  const form = { columns: ["isbn", "copies", "order", "account"], heading: ["EAN", "QTY", "REF", "KDNR"] };
  assert.equal(
    fileOf(form, [row("9780140000016", 2, "9.990")], { order: "A-7", account: "1177" }),
    `${MARK}EAN,QTY,REF,KDNR\r\n9780140000016,2,A-7,1177\r\n`,
  );
  const german = { columns: ["price", "sum", "isbn"], heading: false, separator: ";", decimal: "," };
  assert.equal(fileOf(german, [row("9780140000016", 3, "1234.505")]), `${MARK}"1234,505";"3703,515";9780140000016\r\n`);
  const tabs = { columns: ["isbn", "copies"], heading: false, separator: "\t" };
  assert.equal(fileOf(tabs, [row("9780140000016", 3, "1.000")]), `${MARK}9780140000016\t3\r\n`);
});

test("without signs in the form, those of the page's language", () => {
  speak("de-DE");
  const came = fileOf({ columns: ["isbn", "price"] }, [row("9780140000016", 2, "9.990")]);
  speak("en-GB");
  assert.equal(came, `${MARK}ISBN;Preis\r\n9780140000016;"9,99"\r\n`);
});

test("a text is one cell, and no formula", () => {
  const form = { columns: ["reference", "note"], heading: false };
  for (const [text, cell] of [
    ["=1+1", "'=1+1"], ["a,b", '"a,b"'], ['say "so"', '"say ""so"""'], ["a;=1", '"a;\'=1"'], ["two\nlines", "two lines"],
    ["-7", "'-7"], ["\uff1dx", "'\uff1dx"],
  ]) {
    const came = fileOf(form, [row("9780140000016", 1, "1.000", { offer: { reference: text }, note: text })]);
    assert.equal(came, `${MARK}${cell},${cell}\r\n`);
  }
});

test("an order reference that a file would have to change is told", () => {
  for (const text of ["=7", "-7", "+7", "@7", " '=7"]) assert.ok(isFormula(text), text);
  for (const text of ["", "7", "2026-1", "A=7"]) assert.ok(!isFormula(text), text);
});

test("a key that is none is named", () => {
  const right = { columns: ["isbn", "copies"], heading: true, separator: ";", decimal: "," };
  assert.equal(wrongKey(right), undefined);
  for (const [key, value] of [
    ["columns", undefined], ["columns", []], ["columns", ["title"]], ["heading", ["one"]], ["heading", "yes"], ["separator", "-"],
    ["decimal", ";"], ["file", "a.csv"], ["isbn", "text"],
  ]) {
    assert.equal(wrongKey({ ...right, [key]: value }), key, key);
  }
});
