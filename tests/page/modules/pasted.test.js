// What is pasted, which columns the buyer names, the lines that it becomes, and the bytes that are saved for the
// wholesaler `north`, which the rules take for each book. The cases were written by hand.

import assert from "node:assert/strict";
import { readFileSync } from "node:fs";
import { test } from "node:test";

import { stateOf } from "../page/order/answers.js";
import { isTable, parse, separatorIn, taken } from "../page/order/csv-table.js";
import { fileText } from "../page/order/saving.js";
import { linesOf, markedOf, rowsOf, withLines } from "../page/order/text.js";

const CASES = JSON.parse(readFileSync("pasted.json", "utf8"));

const offer = (series) => ({ series, reference: "R", place: 1, availability: "21", amount: "1.000" });
const ANSWER = { choice: { ...offer("north"), rule: 1 }, offers: [offer("north"), offer("south")], retail: [] };
const SHOP = { type: "05", confirmed: new Set(), changes: new Map() };
const FORM = { columns: ["isbn", "copies"], heading: false, separator: "," };
const CONTEXT = { settings: { series: [{ name: "north", words: "North", csv: FORM }], currency: "GBP" }, order: "" };

/** The lines of pasted text, by the columns that a buyer names, one table after the other. */
function linesFrom({ pasted, tables = [] }) {
  if (!isTable(pasted)) return pasted;
  let rows = parse(pasted, separatorIn(pasted));
  let text = "";
  for (const { isbn, copies, notes = [], zeros = 0, rest = 0 } of tables) {
    const found = taken(rows, { isbn: isbn - 1, copies: copies - 1, notes: notes.map((at) => at - 1) });
    assert.deepEqual([found.zeros, found.rest.length], [zeros, rest]);
    text = withLines(text, found.lines);
    rows = found.rest;
  }
  return text;
}

for (const each of CASES) {
  test(each.name, () => {
    assert.equal(isTable(each.pasted), each.tables !== undefined);
    const lines = linesOf(linesFrom(each)).filter(({ kind }) => kind !== "blank");
    assert.deepEqual(lines.map(({ text }) => text), each.lines);
    assert.deepEqual(markedOf(lines).map(({ reason }) => reason), each.marked ?? []);
    const rows = rowsOf(lines).map((row) => ({ row, state: stateOf(row, ANSWER, SHOP) }));
    const ordered = rows.filter(({ state }) => state.offer?.series === "north");
    assert.equal(fileText(ordered, "north", CONTEXT), `\ufeff${each.saved}`);
  });
}
