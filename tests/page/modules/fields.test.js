// The fields of a question: what each text means, and that a wrong one has no value.

import assert from "node:assert/strict";
import { test } from "node:test";

import { dayKeys, rangeKeys, readAll } from "../page/text/fields.js";

test("what is right has the form of the desk", () => {
  const given = { isbn: " 0-306-40615-2 ", day: "2025-04-10", country: "gb ", currency: " eur", quantity: "010" };
  const values = { isbn: "9780306406157", day: "2025-04-10", country: "GB", currency: "EUR", quantity: "10" };
  assert.deepEqual(readAll(given), { values, problems: {} });
});

test("each wrong field has a problem of its own, and no value", () => {
  const given = { isbn: "97803064061", day: "2025-02-29", country: "GBR", currency: "£", type: "2", quantity: "0" };
  const { values, problems } = readAll(given);
  assert.deepEqual(values, {});
  assert.deepEqual(Object.keys(problems), Object.keys(given));
  for (const words of Object.values(problems)) assert.match(words, /\w{3}/);
});

// The numbers of a pen, of a bar of chocolate and of a journal; and ISBNs with wrong check digits.
test("a wrong ISBN, and the bar code of other goods, are not asked for", () => {
  for (const isbn of ["4006381333931", "7622210449283", "9771234567003"]) assert.match(readAll({ isbn }).problems.isbn, /978 nor 979/);
  for (const isbn of ["9780306406158", "0306406153", "97803064061570", "abc"]) {
    assert.match(readAll({ isbn }).problems.isbn, /no ISBN/);
  }
});

test("an ISBN is read out of what stands around it, and several are told", () => {
  assert.equal(readAll({ isbn: "ISBN: 978-0-306-40615-7 (hardback)" }).values.isbn, "9780306406157");
  assert.equal(readAll({ isbn: "0-8044-2957-x" }).values.isbn, "9780804429573");
  assert.equal(readAll({ isbn: "9780306406157, 0306406152" }).values.isbn, "9780306406157");
  assert.match(readAll({ isbn: "9780306406157 9783161484100" }).problems.isbn, /2 ISBNs/);
});

// As ISO 3166 has them: GB is the United Kingdom's code, RU that of what SU was, CW of what AN is split into.
test("a country that has another code is told", () => {
  for (const [code, right] of [["UK", "GB"], ["uk", "GB"], ["SU", "RU"], ["AN", "CW"], ["YU", "RS"]]) {
    assert.match(readAll({ country: code }).problems.country, new RegExp(`${code.toUpperCase()}.*${right}`));
  }
  for (const code of ["GB", "DE", "IE", "EL", "XX"]) assert.deepEqual(readAll({ country: code }), { values: { country: code }, problems: {} });
});

test("copies are 1 to 999999", () => {
  for (const text of ["1", "999999"]) assert.equal(readAll({ quantity: text }).values.quantity, text);
  for (const text of ["0", "1000000", "-1", "1.5", ""]) assert.notEqual(readAll({ quantity: text }).problems.quantity, undefined);
});

test("the desk's keys", () => {
  const rest = { country: "GB", currency: "GBP", type: "05", quantity: "3" };
  assert.deepEqual(dayKeys({ isbn: "x", day: "2025-04-10", ...rest }), { day: "20250410", ...rest });
  const range = { from: "2025-04-01", until: "2025-04-30" };
  assert.deepEqual(rangeKeys({ ...range, ...rest }), { from: "20250401", to: "20250430", ...rest });
});
