// What a row orders by the desk's answer, and why a person should look at it. The answers are written by hand.

import assert from "node:assert/strict";
import { test } from "node:test";

import { changeOf, confirmKey, savingOf, stateOf, sumsOf, unpricedOf } from "../page/order/answers.js";
import { farInWords } from "../page/article/retail.js";
import { agree } from "../page/desk/offers.js";

const offer = (series, amount, more = {}) => ({ series, reference: "R", place: 1, availability: "21", amount, ...more });
const answer = (offers, choice = null, retail = []) => ({ offers, choice, retail });
const row = (copies, series) => ({ key: `9780140000016@${series ?? ""}`, isbn: "9780140000016", copies, series });

function stateWith(each, answered, more = {}) {
  return stateOf(each, answered, { type: "05", confirmed: new Set(), changes: new Map(), ...more });
}

const [NORTH, SOUTH] = [offer("north", "9.000"), offer("south", "8.000")];

test("the offer that the rules take is ordered", () => {
  assert.deepEqual(stateWith(row(3), answer([NORTH, SOUTH], NORTH)), { offer: NORTH, need: undefined });
});

test("nothing is ordered without an offer, a rule, a price or an answer", () => {
  const unpriced = offer("north", null);
  for (const [answered, need] of [
    [answer([]), "noOffers"], [answer([NORTH]), "notChosen"], [answer([unpriced]), "unpriced"],
    [{ refusal: { kind: "fault" } }, "refused"], [undefined, undefined],
  ]) {
    const state = stateWith(row(1), answered);
    assert.deepEqual([state.offer, state.need], [undefined, need]);
  }
});

test("a wholesaler chosen by hand is the one, or nobody", () => {
  const two = [offer("south", "7.000"), offer("south", "8.000", { reference: "S" })];
  for (const [answered, ordered, need] of [
    [answer([NORTH, SOUTH], NORTH), SOUTH, undefined],
    [answer([NORTH], NORTH), undefined, "handLacks"],
    [answer([NORTH, offer("south", null)], NORTH), undefined, "unpriced"],
    [answer([NORTH, ...two], NORTH), undefined, "handSeveral"],
    [answer([NORTH, ...two], two[1]), two[1], undefined],
  ]) {
    const state = stateWith(row(1, "south"), answered);
    assert.deepEqual([state.offer, state.need], [ordered, need]);
  }
});

test("a person looks at a price of 0 or far from others, at many copies, and at what has changed", () => {
  const [free, penny] = [offer("north", "0.000"), offer("north", "1.000")];
  const retail = [offer("north", "10.000")];
  for (const [each, answered, need, more] of [
    [row(1), answer([free], free), "free"],
    [row(1), answer([penny, offer("south", "5.010")], penny), "far"],
    [row(1), answer([penny, offer("south", "5.000")], penny), undefined],
    [row(1), answer([penny], penny, retail), "far"],
    [row(50), answer([NORTH], NORTH), undefined],
    [row(51), answer([NORTH], NORTH), "many"],
    [row(1), answer([NORTH], NORTH), "changed", { changes: new Map([[changeOf(row(1)), SOUTH]]) }],
  ]) {
    assert.equal(stateWith(each, answered, more).need, need);
  }
});

test("what was confirmed needs nobody, for those copies at that price", () => {
  const confirmed = new Set([confirmKey("many", row(60), NORTH)]);
  assert.equal(stateWith(row(60), answer([NORTH], NORTH), { confirmed }).need, undefined);
  assert.equal(stateWith(row(61), answer([NORTH], NORTH), { confirmed }).need, "many");
  const dearer = offer("north", "9.010");
  assert.equal(stateWith(row(60), answer([dearer], dearer), { confirmed }).need, "many");
});

test("another offer of the same answer that costs less is told, with what it saves", () => {
  const [chosen, less] = [offer("north", "14.000"), offer("south", "8.000")];
  assert.deepEqual(savingOf(answer([chosen, less]), chosen, 9), { offer: less, amount: "54.000" });
  assert.equal(savingOf(answer([chosen, offer("south", "14.000"), offer("west", null)]), chosen, 9), undefined);
});

test("a price that is far from others is told with the side on which it lies", () => {
  for (const [far, amount, words] of [
    [{ retail: "12.990" }, "13.500", "£13.50 is above the recommended price, £12.99: ask before you order."],
    [{ retail: "12.990" }, "1.000", "£1.00 is far below the recommended price, £12.99: ask before you order."],
    [{ next: "9.000" }, "1.000", "£1.00 is far below the next offer, £9.00: ask before you order."],
  ]) {
    assert.equal(farInWords(far, { amount }, "GBP"), words);
  }
});

test("who has no price of the type", () => {
  assert.deepEqual(unpricedOf(answer([NORTH, offer("north", null), offer("south", null)])), ["south"]);
});

test("choice and offers are of one moment where they have one price", () => {
  assert.ok(agree(null, [NORTH]));
  assert.ok(agree(NORTH, [SOUTH, NORTH]));
  assert.ok(!agree(NORTH, [offer("north", "9.010")]));
});

test("sums are exact, by wholesaler and in all", () => {
  const rows = [[3, offer("north", "0.105")], [2, SOUTH], [1, offer("north", "1.000")]]
    .map(([copies, each]) => ({ row: row(copies), state: { offer: each } }));
  assert.deepEqual(sumsOf(rows), {
    bySeries: [
      { series: "north", books: 2, copies: 4, amount: "1.315" },
      { series: "south", books: 1, copies: 2, amount: "16.000" },
    ],
    all: { books: 3, copies: 6, amount: "17.315" },
  });
});
