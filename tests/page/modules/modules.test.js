// Loads each module of the page without a browser, so that none imports what another one does not have; and checks
// sheets for what no browser reports.

import assert from "node:assert/strict";
import { readdirSync, readFileSync } from "node:fs";
import { test } from "node:test";

// This one starts the page when it is loaded.
const FIRST = "main.js";

const FILES = readdirSync("../page", { recursive: true }).filter((name) => name.endsWith(".js") && name !== FIRST);

test("each module is loaded", async () => {
  assert.ok(FILES.length > 30);
  for (const file of FILES) {
    const { length } = Object.keys(await import(`../page/${file}`));
    assert.ok(length > 0, `${file} gives nothing to others`);
  }
});

test("no rule of an order list's sheet looks at what an element has, by which each change would look all rows through", () => {
  const rules = readFileSync("../page/order.css", "utf8").replace(/\/\*.*?\*\//gs, "");
  assert.ok(rules.includes("#list"));
  assert.ok(!rules.includes(":has("));
});
