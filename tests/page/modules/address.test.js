import assert from "node:assert/strict";
import { test } from "node:test";

import { addressOf, readAddress } from "../page/text/address.js";

test("an address is read as it is written", () => {
  const given = { isbn: "9780306406157", day: "2025-04-10", type: "02" };
  const address = addressOf("article", given);
  assert.equal(
    address, "#article?isbn=9780306406157&day=2025-04-10&type=02",
  );
  assert.deepEqual(readAddress(address), { view: "article", given });
});

test("what is not given is not in the address", () => {
  assert.equal(addressOf("article", { isbn: "1", day: undefined, other: "x" }), "#article?isbn=1");
});

test("unknown names are passed over, and an unknown view is the first one", () => {
  const odd = "#article?isbn=1&utm_source=mail&__proto__=x&constructor=y&toString=z";
  assert.deepEqual(readAddress(odd), { view: "article", given: { isbn: "1" } });
  assert.deepEqual(readAddress("#nowhere"), { view: "article", given: {} });
  assert.deepEqual(readAddress(""), { view: "article", given: {} });
  assert.deepEqual(readAddress("#missing"), { view: "missing", given: {} });
});

test("signs that mean something in an address come through it", () => {
  const given = { isbn: "a&b=c?d#e%+ ü" };
  assert.deepEqual(readAddress(addressOf("article", given)).given, given);
});
