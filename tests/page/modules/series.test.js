// How a wholesaler's files stand: what cannot be seen is never complete. The files are written by hand.

import assert from "node:assert/strict";
import { test } from "node:test";

import { readRules, ruleInWords } from "../page/desk/rules.js";
import { lastOfSender, ofSender, rangesInShort, rangesOfSender, requestFor } from "../page/missing/request.js";
import { readState, reasonsOf, restInWords, termsInWords, typesIn } from "../page/missing/series.js";

const NOW = 1764482525;
const WHOLE = {
  version: 1, at: NOW, numbered: true, desk: true, silent: false, waiting: 0, quarantined: 0, refused: 0, first: 1, next: 12,
  greatest: 11, taken_at: NOW, heard_at: NOW, prices: [["02", "GBP"], ["05", "GBP"], ["15", "EUR"]], older_terms: 0,
};
const REPORT = { first: 1, next: 12, missing: [], held: 0 };

test("a file of the inbox is read whole, or it cannot be seen", () => {
  assert.deepEqual(readState(JSON.stringify(WHOLE)), WHOLE);
  assert.notEqual(readState(JSON.stringify({ ...WHOLE, heard_at: null, more: 1 })), undefined);
  for (const text of ["", "{", "null", "[]", "{}"]) assert.equal(readState(text), undefined, text);
  for (const key of ["at", "numbered", "desk", "silent", "waiting", "quarantined", "refused", "heard_at", "older_terms", "prices"]) {
    assert.equal(readState(JSON.stringify({ ...WHOLE, [key]: undefined })), undefined, key);
    assert.equal(readState(JSON.stringify({ ...WHOLE, [key]: "x" })), undefined, key);
  }
  for (const wrong of [{ version: 2 }, { waiting: -1 }, { refused: 0.5 }]) {
    assert.equal(readState(JSON.stringify({ ...WHOLE, ...wrong })), undefined);
  }
});

test("complete, and where files have no numbers only when the last one came", () => {
  assert.deepEqual(reasonsOf(WHOLE, REPORT, NOW), []);
  assert.equal(restInWords(WHOLE), "Complete: nothing is missing.");
  const now = Math.floor(Date.now() / 1000);
  assert.match(restInWords({ ...WHOLE, numbered: false, heard_at: now }), /^Last file today \d\d:\d\d\. It has no numbers/);
  assert.match(restInWords({ ...WHOLE, numbered: false, heard_at: 1741219200 }), /^Last file 6 March 2025\. /);
  assert.match(restInWords({ ...WHOLE, numbered: false, heard_at: null }), /^No file yet\. /);
});

test("each reason to stop and look is told, and none is left out", () => {
  const missing = { ...REPORT, missing: [[3, 4], [7, 7]], held: 2 };
  for (const [state, report, words] of [
    [undefined, REPORT, ["whether a file is stopped or lost cannot be seen"]],
    [{ ...WHOLE, at: NOW - 901 }, REPORT, ["whether a file is stopped or lost cannot be seen"]],
    [{ ...WHOLE, at: NOW - 900 }, REPORT, []],
    [WHOLE, undefined, ["the desk has no report on its messages"]],
    [WHOLE, missing, ["3 messages are missing: 3 to 4, 7", "later messages that wait for what is missing: 2"]],
    [{ ...WHOLE, quarantined: 1 }, REPORT, ["1 file is in quarantine"]],
    [{ ...WHOLE, refused: 2 }, REPORT, ["2 files were refused"]],
    [{ ...WHOLE, waiting: 1 }, REPORT, ["1 file waits"]],
    [{ ...WHOLE, desk: false }, REPORT, ["the desk did not answer when its files were last looked at"]],
    [{ ...WHOLE, silent: true, heard_at: 1741219200 }, REPORT, ["nothing new has come for longer than usual, since 6 March 2025"]],
    [{ ...WHOLE, silent: true, heard_at: null }, REPORT, ["nothing has come yet, for longer than usual"]],
    [{ ...WHOLE, quarantined: 1, at: 0 }, undefined, [
      "whether a file is stopped or lost cannot be seen", "the desk has no report on its messages",
    ]],
  ]) {
    assert.deepEqual(reasonsOf(state, report, NOW), words);
  }
});

test("what else a file of the inbox says", () => {
  assert.deepEqual([typesIn(WHOLE, "GBP"), typesIn(WHOLE, "EUR"), typesIn(undefined, "GBP")], [["02", "05"], ["15"], []]);
  assert.deepEqual(typesIn({ prices: ["x", null, [5, "GBP"]] }, "GBP"), []);
  assert.deepEqual([termsInWords(undefined), termsInWords(WHOLE)], ["", ""]);
  assert.equal(termsInWords({ ...WHOLE, older_terms: 12 }), "Articles whose price is by an older table of terms: 12.");
});

// `convert --parts 5` makes of message 10 those of the numbers 46 to 50, and with `--number-offset 100` those of
// message 110: 546 to 550.
test("messages are asked for by the wholesaler's own numbers, and none below 1", () => {
  const plain = { parts: 1, offset: 0 };
  assert.deepEqual([45, 46, 50, 51].map((number) => ofSender(number, { parts: 5, offset: 0 })), [9, 10, 10, 11]);
  assert.equal(ofSender(546, { parts: 5, offset: 100 }), 10);
  assert.deepEqual(rangesOfSender([[46, 47], [49, 52]], { parts: 5, offset: 0 }), [[10, 11]]);
  assert.deepEqual(rangesOfSender([[3, 4], [7, 9]], plain), [[3, 4], [7, 9]]);
  assert.deepEqual(rangesOfSender([[103, 104]], { parts: 1, offset: 100 }), [[3, 4]]);
  assert.deepEqual(rangesOfSender([[503, 503], [505, 1004]], { parts: 1, offset: 503 }), [[2, 501]]);
  assert.deepEqual(rangesOfSender([[500, 502]], { parts: 1, offset: 503 }), []);
  assert.deepEqual([46, 48, 51].map((next) => lastOfSender(next, { parts: 5, offset: 0 })), [9, 9, 10]);
});

test("the letter", () => {
  const series = { words: "North Books", parts: 1, offset: 0 };
  const letter = requestFor({ first: 1, next: 3, held: 2, missing: [[3, 4], [6, 8]] }, series, { shop: "High Street Books" });
  assert.match(letter, /^To North Books\nFrom High Street Books\n\d+ \w+ \d{4}\n\nThese of your ONIX messages/);
  assert.match(letter, /3 to 4, 6 to 8 \(5 messages in all\)/);
  assert.match(letter, /We have applied your messages up to number 2\.\nLater ones have come/);
  const none = { first: 1, next: 1, held: 1, missing: [[1, 1]] };
  assert.match(requestFor(none, series, { shop: "" }), /We have applied none of your messages yet/);
  assert.equal(requestFor({ first: 1, next: 3, held: 1, missing: [[3, 3]] }, { ...series, offset: 9 }, { shop: "" }), undefined);
  assert.equal(rangesInShort([[3, 4], [7, 7]]), "3 to 4, 7");
});

test("rules are read as the desk has them, and said in words", () => {
  const rules = [{ series: "north", codes: ["20", "21"], max: "15.00" }, { series: "*", codes: ["22"] }];
  assert.deepEqual(readRules(JSON.stringify({ version: 1, at: 1, rules })), rules);
  assert.deepEqual(readRules(JSON.stringify({ version: 1, at: 1, rules: [] })), []);
  for (const text of ["", "{", "{}", '{"version":2,"rules":[]}', '{"version":1,"rules":[{"series":"a"}]}', '{"version":1,"rules":[null]}', '{"version":1,"rules":[{"series":"a","codes":[],"min":"1"}]}']) {
    assert.equal(readRules(text), undefined, text);
  }
  const settings = { series: [{ name: "north", words: "North Books" }], currency: "GBP" };
  assert.deepEqual(rules.map((rule) => ruleInWords(rule, settings)), [
    "North Books: available, in stock, at most 15.00", "any wholesaler: to order",
  ]);
});
