// Bar codes, told from typing by the speed of their digits.

import assert from "node:assert/strict";
import { test } from "node:test";

import { Burst } from "../page/text/scan.js";

function typed(digits, gap) {
  const burst = new Burst();
  [...digits].forEach((digit, at) => burst.add(digit, 1000 + at * gap));
  return { burst, end: 1000 + (digits.length - 1) * gap };
}

test("thirteen digits that come quickly are a bar code", () => {
  for (const gap of [0, 1, 20, 60]) assert.equal(typed("9781234567897", gap).burst.code, "9781234567897", gap);
});

test("what a hand types is none", () => {
  for (const gap of [61, 100, 300]) assert.equal(typed("9781234567897", gap).burst.code, undefined);
  assert.equal(typed("978123456789", 5).burst.code, undefined);
});

test("what stands behind the thirteen digits belongs to them, such as a price's code", () => {
  assert.equal(typed("978123456789751299", 5).burst.code, "978123456789751299");
});

test("a pause begins another one", () => {
  const { burst, end } = typed("97812345678", 5);
  burst.add("9", end + 200);
  assert.equal(burst.code, undefined);
  assert.equal(burst.begins(end + 201), false);
  assert.equal(burst.begins(end + 261), true);
});

test("Enter or Tab stands directly behind", () => {
  const { burst, end } = typed("9781234567897", 5);
  assert.equal(burst.isBehind(end + 20), true);
  assert.equal(burst.isBehind(end + 500), false);
  burst.end();
  assert.equal(burst.code, undefined);
});
