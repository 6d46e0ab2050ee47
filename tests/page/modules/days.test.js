// Days. Expected values are from a printed calendar.

import assert from "node:assert/strict";
import { test } from "node:test";

import { dayInShort, fromDesk, inWords, isDay, lengthOf, plusDays, toDesk, today } from "../page/text/days.js";

test("days that there are, and that there are not", () => {
  for (const day of ["2024-02-29", "2000-02-29", "0001-01-01", "9999-12-31"]) assert.equal(isDay(day), true, day);
  for (const day of ["2025-02-29", "1900-02-29", "2025-04-31", "2025-13-01", "0000-01-01", "20250410", ""]) {
    assert.equal(isDay(day), false, day);
  }
});

test("how many days a range has", () => {
  assert.equal(lengthOf({ from: "2024-01-01", until: "2024-12-31" }), 366);
});

test("later days, over a month, a leap day and the ends of the calendar", () => {
  assert.equal(plusDays("2025-03-25", 7), "2025-04-01");
  assert.equal(plusDays("2024-02-28", 1), "2024-02-29");
  assert.equal(plusDays("2025-01-01", -1), "2024-12-31");
  assert.equal(plusDays("9999-12-31", 1), "9999-12-31");
  assert.equal(plusDays("0001-01-01", -1), "0001-01-01");
});

test("the desk's form", () => {
  assert.equal(toDesk("2025-04-10"), "20250410");
  assert.equal(fromDesk("20250410"), "2025-04-10");
});

test("days in words", () => {
  assert.equal(inWords("2025-04-10"), "10 April 2025");
  assert.equal(dayInShort("2025-09-01"), "1 Sept 2025");
});

test("today is a day of the clock and the time zone here", (context) => {
  const Real = globalThis.Date;
  context.after(() => (globalThis.Date = Real));
  const at = (...now) => {
    globalThis.Date = class extends Real {
      constructor(...given) {
        super(...(given.length > 0 ? given : now));
      }
    };
  };
  at(2026, 10, 26, 23, 59, 59);
  assert.equal(today(), "2026-11-26");
  at(2026, 10, 27, 0, 0, 0);
  assert.equal(today(), "2026-11-27");
});

