// desk.json: right values are used, and wrong ones reported.

import assert from "node:assert/strict";
import { readFileSync } from "node:fs";
import { test } from "node:test";

import { readSettings, wholesalerOf } from "../page/desk/settings.js";
import { say } from "../page/text/wording.js";

const SERIES = { name: "north", words: "North Books" };
const RIGHT = { series: [SERIES], country: "DE", currency: "EUR", price_type: "05" };
const read = (given) => readSettings(JSON.stringify(given));
const told = (text) => readSettings(text).problems.map(({ path, values }) => say(path, values));

test("the sample has nothing wrong in it", () => {
  assert.deepEqual(readSettings(readFileSync("../page/desk.json", "utf8")).problems, []);
});

test("what is not named is as the page has it", () => {
  const series = [{ ...SERIES, parts: 1, offset: 0, mail: "", account: "", csv: {} }];
  const settings = {
    series, shop: "", address: "", language: "en-GB", country: "DE", currency: "EUR", type: "05", quantities: [],
    catalogue: "", retailType: "",
  };
  assert.deepEqual(read(RIGHT), { settings, problems: [] });
});

test("all keys of the shop and of a series", () => {
  const csv = { columns: ["isbn", "copies"] };
  const series = { ...SERIES, parts: 5, number_offset: 2, mail: "edi@north.example", account: "7", csv };
  const { settings, problems } = read({
    ...RIGHT, series: [series], shop: "Shop", address: "Street 1", language: "de", quantities: [1, 10],
    catalogue: "https://catalogue.example.org/{isbn}", recommended_type: "04", price_file: { columns: [] },
  });
  assert.deepEqual(problems, []);
  assert.deepEqual(settings.series, [{ ...SERIES, parts: 5, offset: 2, mail: "edi@north.example", account: "7", csv }]);
  const found = [settings.shop, settings.address, settings.language, settings.quantities, settings.retailType];
  assert.deepEqual(found, ["Shop", "Street 1", "de", [1, 10], "04"]);
});

// Each key, with values that it may not have.
const WRONG = {
  shop: [1], address: [null], language: ["", "Klingon?"], country: ["gb", "GBR"], currency: ["£", "euro"], price_type: [2, "5"],
  quantities: [[0], [1, 1], [10, 1], ["1"], [1.5], [1000000], 1, null, [1, 2, 3, 4, 5, 6, 7, 8, 9]],
  catalogue: ["http://a.example/{isbn}", "https://a.example/", "https://a.example/{isbn}{isbn}"],
  recommended_type: ["05", 2],
};
const WRONG_OF_SERIES = {
  parts: [0, 10000, "5", 1.5], number_offset: [-1, 1.5, "1"], mail: ["north.example", "a@b?bcc=c@d", "a@b, c@d", 1],
  account: [7], csv: [{}, { columns: ["title"] }], words: [5],
};

test("a value that a key may not have is told, and not used", () => {
  const cases = [
    ...Object.entries(WRONG).map(([key, values]) => [key, values, (value) => ({ ...RIGHT, [key]: value })]),
    ...Object.entries(WRONG_OF_SERIES).map(([key, values]) => (
      [key, values, (value) => ({ ...RIGHT, series: [{ ...SERIES, [key]: value }] })]
    )),
  ];
  for (const [key, values, given] of cases) {
    for (const value of values) {
      const [problem, ...others] = read(given(value)).problems;
      assert.deepEqual([problem?.path, problem?.values.key, others], ["settings.wrong", key, []], `${key} ${value}`);
    }
  }
  assert.equal(read({ ...RIGHT, currency: "euro" }).settings.currency, "");
});

test("what is wrong is told in words", () => {
  const rest = '"country": "GB", "currency": "GBP", "price_type": "02"';
  for (const [text, words] of [
    ["[]", "desk.json is no JSON object."],
    [`{"series": [], ${rest}, "colour": 1}`, "“colour” is no name that the page knows."],
    [`{"series": [], ${rest}, "currencies": ["EUR"]}`, "“currencies” is no name that the page knows."],
    [`{"series": [], ${rest}, "quantities": 3}`, "“quantities” is 3, which it may not be."],
    [`{${rest}}`, "“series” is not there."],
    [`{"series": [{"name": "a", "words": ""}, {"name": "a", "words": ""}], ${rest}}`, 'series 2: another one has the name "a".'],
    [`{"series": [{"name": "a", "words": "", "sender": "1"}], ${rest}}`, "series 1: “sender” is no name that the page knows."],
    [`{"series": [{"words": "A"}], ${rest}}`, "series 1: “name” is not there."],
  ]) {
    assert.deepEqual(told(text), [words]);
  }
  assert.match(told("{")[0], /^desk.json is not JSON: /);
});

test("the words of a series", () => {
  const { settings } = read(RIGHT);
  assert.deepEqual([wholesalerOf(settings, "north"), wholesalerOf(settings, "other")], ["North Books", "other"]);
});
