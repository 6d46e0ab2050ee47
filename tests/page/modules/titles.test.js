// Titles beside the desk's answers. The files are written by hand, in the form of docs/INBOX.md.

import assert from "node:assert/strict";
import { afterEach, beforeEach, test } from "node:test";

import { differing, fileOf, titlesOf, titlesOfOffers, titleTexts } from "../page/desk/titles.js";

const ISBN = "9781900001014";
const OTHER = "9781900001021";

const { fetch: realFetch } = globalThis;
let asked;
let reply;

beforeEach(() => {
  asked = [];
  globalThis.document = { baseURI: "https://desk.example.org/" };
  globalThis.fetch = async (url) => {
    asked.push(url.pathname);
    return reply();
  };
});
afterEach(() => {
  globalThis.fetch = realFetch;
  delete globalThis.document;
});

const has = (file) => { reply = () => new Response(typeof file === "string" ? file : JSON.stringify(file)); };
const signal = new AbortController().signal;
const OFFERS = [{ series: "north" }, { series: "south" }];
const titlesOfBook = async (offers = OFFERS, chosen = undefined) =>
  titlesOfOffers((await titlesOf([ISBN], signal)).get(ISBN), offers, chosen);
const textsOf = async (...given) => titleTexts(await titlesOfBook(...given));

const NORTH = ["north", 5, 1795849200, "The Lamplighter’s Almanac", "A Year", "Éilís Byrne (A01); Jo Roe (B06); X (Z99)", "Quay"];

test("a title is asked for by the first digits of its ISBN, in the file of others that begin so", async () => {
  has({ [ISBN]: [NORTH] });
  const titles = await titlesOf([ISBN, OTHER], signal);
  assert.deepEqual(asked, ["/state/titles/97819/97819000.json"]);
  assert.equal(fileOf(ISBN), "state/titles/97819/97819000.json");
  assert.deepEqual([...titles.keys()], [ISBN, OTHER]);
  assert.deepEqual(titles.get(ISBN).map(({ series }) => series), ["north"]);
  assert.deepEqual(titles.get(OTHER), []);
});

test("it is shown with its subtitle, its contributors without their roles, and its publisher", async () => {
  has({ [ISBN]: [NORTH] });
  assert.deepEqual(await textsOf(), [
    "The Lamplighter’s Almanac: A Year", "Éilís Byrne; Jo Roe; X", "Quay",
  ]);
  has({ [ISBN]: [["north", 5, 1795849200, "Almanac", "", "", ""]] });
  assert.deepEqual(await textsOf(), ["Almanac"]);
});

test("of several series the first one counts that has not deleted its own", async () => {
  const south = ["south", 1, 1795849100, "Another title", "", "", ""];
  has({ [ISBN]: [NORTH, south] });
  assert.equal((await textsOf())[0], "The Lamplighter’s Almanac: A Year");
  has({ [ISBN]: [["north", 6, 1795849300], south] });
  assert.deepEqual(await textsOf(), ["Another title"]);
  has({ [ISBN]: [["north", 6, 1795849300]] });
  assert.deepEqual(await textsOf(), []);
});

test("a title is that of a series that offers the book, and of the chosen one first", async () => {
  const libra = ["libra", 1, 1795849300, "Dictionary", "", "", ""];
  const south = ["south", 1, 1795849100, "Small Harbour", "", "", ""];
  has({ [ISBN]: [libra, south, NORTH] });
  assert.deepEqual(await textsOf(), ["Small Harbour"]);
  assert.equal((await textsOf(OFFERS, { series: "north" }))[0], "The Lamplighter’s Almanac: A Year");
  assert.deepEqual(await textsOf([{ series: "west" }]), []);
});

test("titles that differ are told, but for case, punctuation and subtitles", async () => {
  const titled = (series, title, subtitle = "") => [series, 1, 1795849100, title, subtitle, "", ""];
  const differ = async (...titles) => {
    has({ [ISBN]: titles });
    return differing(await titlesOfBook()).map(({ title }) => title);
  };
  assert.deepEqual(await differ(titled("north", "Small Harbour"), titled("south", "Wörterbuch")), ["Wörterbuch"]);
  assert.deepEqual(await differ(titled("north", "Small Harbour"), titled("south", "SMALL HARBOUR!")), []);
  assert.deepEqual(await differ(titled("north", "Dune", "A novel"), titled("south", "Dune: a novel")), []);
  assert.deepEqual(await differ(titled("north", "Dune")), []);
});

test("signs that set the direction of letters are left out", async () => {
  has({ [ISBN]: [["north", 5, 1795849200, "One\u202ekcab \u2067two\u2069", "", "", ""]] });
  assert.deepEqual(await textsOf(), ["Onekcab two"]);
});

test("what is no file of titles says nothing", async () => {
  for (const file of [
    {}, [], { [ISBN]: {} }, { [ISBN]: [NORTH.slice(0, 6)] }, { [ISBN]: [null, [...NORTH.slice(0, 3), 1, 2, 3, 4]] },
  ]) {
    has(file);
    assert.deepEqual(await textsOf(), [], JSON.stringify(file));
  }
  for (const status of [204, 404]) {
    reply = () => new Response(null, { status });
    assert.deepEqual(await textsOf(), []);
  }
});

test("where the file cannot be read, nothing is known", async () => {
  for (const broken of ["{", "", "null"]) {
    has(broken);
    assert.equal((await titlesOf([ISBN], signal)).size, 0, broken);
  }
  reply = () => new Response("", { status: 503 });
  assert.equal((await titlesOf([ISBN], signal)).size, 0);
  reply = () => { throw new TypeError("unreached"); };
  assert.equal((await titlesOf([ISBN], signal)).size, 0);
  const left = new AbortController();
  left.abort();
  await assert.rejects(titlesOf([ISBN], left.signal), { name: "AbortError" });
});

