// Amounts. Expected values are how each language writes money, with the no-break space if it has one.

import assert from "node:assert/strict";
import { afterEach, test } from "node:test";

import {
  bareMoney, compareAmounts, difference, isNothing, money, signedMoney, sumOf, times,
} from "../page/text/amounts.js";
import { speak } from "../page/text/wording.js";

const speaking = speak;
const plain = (text) => text.replaceAll(/[\u00a0\u202f]/g, " ");

afterEach(() => speaking("en-GB"));

test("amounts in English", () => {
  assert.equal(money("11.500", "GBP"), "£11.50");
  assert.equal(money("24.000", "EUR"), "€24.00");
  assert.equal(money("1234567.891", "GBP"), "£1,234,567.891");
  assert.equal(bareMoney("1234.500", "GBP"), "1,234.50");
});

test("amounts in German", () => {
  speaking("de");
  assert.equal(plain(money("24.000", "EUR")), "24,00 €");
  assert.equal(plain(money("1234.500", "EUR")), "1.234,50 €");
  assert.equal(plain(money("0.990", "EUR")), "0,99 €");
  assert.equal(bareMoney("1234.500", "EUR"), "1.234,50");
});

test("a third decimal stays, and a needless one goes", () => {
  assert.equal(money("7.125", "GBP"), "£7.125");
  assert.equal(money("7.120", "GBP"), "£7.12");
  assert.equal(money("7.100", "GBP"), "£7.10");
  assert.equal(money("0.001", "GBP"), "£0.001");
});

test("a currency without decimals has those of the amount alone", () => {
  assert.equal(money("2400.000", "JPY"), "JP¥2,400");
  assert.equal(money("2400.500", "JPY"), "JP¥2,400.5");
});

test("the greatest amount and one that no binary number has stay exact", () => {
  assert.equal(money("999999999.999", "GBP"), "£999,999,999.999");
  assert.equal(bareMoney("9007199254740993.001", "GBP"), "9,007,199,254,740,993.001");
});

test("amounts are ordered by what they are, and no price is last", () => {
  const amounts = ["10.000", null, "9.500", "9.250", "100.000", "9.500"];
  const ordered = [...amounts].sort(compareAmounts);
  assert.deepEqual(ordered, ["9.250", "9.500", "9.500", "10.000", "100.000", null]);
});

test("sums are exact", () => {
  assert.equal(times("0.105", 3), "0.315");
  assert.equal(times("999999999.999", 999999), "999998999999000.001");
  assert.equal(sumOf(["0.100", "0.200", "9007199254740993.001"]), "9007199254740993.301");
  assert.equal(sumOf([]), "0.000");
});

test("differences have a sign", () => {
  assert.equal(difference("13.990", "4.140"), "9.850");
  assert.equal(difference("4.140", "4.645"), "-0.505");
  assert.equal(signedMoney("9.850", "GBP"), "+£9.85");
  assert.equal(signedMoney("-0.505", "GBP"), "-£0.505");
  assert.equal(signedMoney("0.000", "GBP"), "£0.00");
});

test("nothing is nothing however it is written", () => {
  assert.deepEqual(["0.000", "0", "0.001", "10.000"].map(isNothing), [true, true, false, false]);
});
