// ISBNs. The examples are from the standard's manual and from books in print.

import assert from "node:assert/strict";
import { test } from "node:test";

import { checkDigit, checkSign, isbnOf, isbnsIn, isTen, plain, toThirteen } from "../page/text/isbn.js";

const PAIRS = [
  ["0306406152", "9780306406157"],
  ["080442957X", "9780804429573"],
  ["316148410X", "9783161484100"],
  ["0201896850", "9780201896855"],
];

test("ten digits become thirteen", () => {
  for (const [ten, thirteen] of PAIRS) assert.equal(toThirteen(ten), thirteen);
});

test("the last sign of each ISBN is the one that belongs there", () => {
  for (const [ten, thirteen] of PAIRS) {
    assert.equal(checkSign(ten), ten.at(-1));
    assert.equal(checkDigit(thirteen), thirteen.at(-1));
  }
});

test("any one digit that is mistyped is seen", () => {
  for (const [ten, thirteen] of PAIRS) {
    for (let at = 0; at < 9; at += 1) {
      const other = String((Number(ten[at]) + 1) % 10);
      assert.notEqual(checkSign(ten.slice(0, at) + other + ten.slice(at + 1)), ten.at(-1));
    }
    for (let at = 0; at < 12; at += 1) {
      const other = String((Number(thirteen[at]) + 1) % 10);
      assert.notEqual(checkDigit(thirteen.slice(0, at) + other + thirteen.slice(at + 1)), thirteen.at(-1));
    }
  }
});

test("ten digits may end in an X and have none before", () => {
  assert.equal(isTen("080442957X"), true);
  assert.equal(isTen("X804429570"), false);
  assert.equal(isTen("030640615"), false);
  assert.equal(isTen("9780306406157"), false);
});

test("hyphens and spaces of any kind are plain ones, each at its place", () => {
  assert.equal(plain("978\u2010\u00a00306\u00ad\u200b4"), "978- 0306- 4");
});

const BOOK = "9780306406157";

test("an ISBN is found in what stands around it", () => {
  for (const text of [
    "9780306406157", "978-0-306-40615-7", "0-306-40615-2", "ISBN: 978-0-306-40615-7", "ISBN-13: 9780306406157",
    '"9780306406157"', "9780306406157,", "'0306406152'", "0-306-40615-2 (hardback)",
    "https://shop.example.org/books/9780306406157?ref=2", "https://example.com/dp/0306406152/ref=x",
    "978030640615751299", "9780306406157 51299", "978030640615705",
    "09780306406157", "urn:isbn:9780306406157",
  ]) {
    assert.deepEqual(isbnsIn(text), [BOOK], text);
  }
  assert.deepEqual(isbnsIn("080442957x"), ["9780804429573"]);
  assert.deepEqual(isbnsIn("0 8044 2957 X, 2 copies"), ["9780804429573"]);
});

test("several ISBNs are found in order", () => {
  const both = [BOOK, "9783161484100"];
  for (const text of [
    "9780306406157\n9783161484100", "9780306406157 9783161484100",
    "0306406152;316148410X", "2 x 9780306406157\t3 x 978-3-16-148410-0\r\n",
  ]) {
    assert.deepEqual(isbnsIn(text), both, text);
  }
});

// 9781402037579 is 9781402037597 with two digits swapped; of its thirteen some ten may end rightly by chance.
test("no ISBN is found where a digit is wrong", () => {
  for (const text of ["9781402037579", "978-1-4020-3757-9", "0306406153", "9780306406158", "97803064061570", "123", ""]) {
    assert.deepEqual(isbnsIn(text), [], text);
  }
  assert.deepEqual(["9781402037579", "9781402037597", "080442957X"].map(isbnOf), [undefined, "9781402037597", "9780804429573"]);
});
