// How often a desk without an answer is asked: never again by itself if a question may end it.

import assert from "node:assert/strict";
import { afterEach, beforeEach, test } from "node:test";

import { ask } from "../page/desk/questions.js";

const { fetch: realFetch, setTimeout: realTimeout } = globalThis;
const THERE = "series/is-the-desk-there/gaps";
const ANSWER = [200, { answer: "price", offers: [] }];
const UNKNOWN = [404, { answer: "refused", reason: "unknown-series" }];
const LOST = [502, {}];

let asked;
// The reply to a path, as a status and a body, or `undefined` for no reply.
let replyTo;
let told;

beforeEach(() => {
  asked = [];
  told = [];
  globalThis.document = { baseURI: "https://desk.example.org/" };
  globalThis.fetch = async ({ pathname }) => {
    const path = pathname.replace("/desk/", "");
    asked.push(path);
    const reply = replyTo(path);
    if (reply === undefined) throw new TypeError("no connection");
    return new Response(JSON.stringify(reply[1]), { status: reply[0] });
  };
  // Nobody waits for the seconds between two questions; those that a reply may take never end.
  globalThis.setTimeout = (act, wait) => (wait === 5000 ? realTimeout(act, 0) : undefined);
});
afterEach(() => {
  globalThis.fetch = realFetch;
  globalThis.setTimeout = realTimeout;
  delete globalThis.document;
});

const watch = { down: (words) => told.push(words), up: () => told.push("up") };
const askFor = (path, signal = new AbortController().signal) => ask(path, {}, signal, watch);
/** Replies of a list, one after the other, and then always the last one. */
const inOrder = (replies) => () => (replies.length > 1 ? replies.shift() : replies[0]);

test("a desk that is away is asked for something else until it is there, and once more then", async () => {
  for (const [away, first] of [[LOST, 1], [[504, {}], 1], [undefined, 1]]) {
    [asked, told] = [[], []];
    const before = Array(first).fill(away);
    const [questions, others] = [inOrder([...before, ANSWER]), inOrder([away, away, UNKNOWN])];
    replyTo = (path) => (path === THERE ? others() : questions());
    assert.equal((await askFor("articles/1/price")).kind, "answer");
    const wanted = [...before.map(() => "articles/1/price"), THERE, THERE, THERE, "articles/1/price"];
    assert.deepEqual(asked, wanted);
    assert.deepEqual(told.map((words) => words === "up"), [false, false, false, true]);
  }
});

test("a question that is twice without a reply is not asked again by itself", async () => {
  replyTo = (path) => (path === THERE ? UNKNOWN : LOST);
  const outcome = await askFor("articles/1/price");
  assert.deepEqual(outcome, {
    kind: "fault",
    words: "The desk has left this question without an answer twice, though it answers others.",
  });
  assert.deepEqual(asked, ["articles/1/price", THERE, "articles/1/price"]);
  assert.equal(told.at(-1), "up");
});

test("a desk that lacks memory is asked once, one with another fault until it answers", async () => {
  for (const [reason, count] of [["memory", 1], ["size", 1], ["disk", 3], ["unusable", 3]]) {
    asked = [];
    const fault = [503, { answer: "fault", reason }];
    replyTo = inOrder([fault, fault, ANSWER]);
    assert.equal((await askFor("articles/1/price")).kind, count === 1 ? "fault" : "answer", reason);
    assert.equal(asked.length, count, reason);
  }
});

test("a web server that was asked too often is asked the same again", async () => {
  const OFTEN = [429, {}];
  const [questions, others] = [inOrder([OFTEN, OFTEN, LOST, OFTEN, LOST, ANSWER]), inOrder([OFTEN, UNKNOWN])];
  replyTo = (path) => (path === THERE ? others() : questions());
  assert.equal((await askFor("articles/1/price")).kind, "answer");
  const count = (path) => asked.filter((found) => found === path).length;
  assert.deepEqual([count("articles/1/price"), count(THERE)], [6, 3]);
});

test("a question that ends the desk takes no other with it", async () => {
  // After each question about the first article, the desk is away for three questions.
  let away = 0;
  replyTo = (path) => {
    if (path.startsWith("articles/1/")) away = 4;
    away -= 1;
    if (away >= 0) return LOST;
    return path === THERE ? UNKNOWN : ANSWER;
  };
  const outcomes = await Promise.all([1, 2, 3].map((isbn) => askFor(`articles/${isbn}/price`)));
  assert.deepEqual(outcomes.map(({ kind }) => kind), ["fault", "answer", "answer"]);
  assert.equal(asked.filter((path) => path === "articles/1/price").length, 2);
});

test("a question that nobody waits for any longer is not asked, and holds up no other", async () => {
  replyTo = inOrder([LOST, LOST, UNKNOWN, ANSWER]);
  const left = new AbortController();
  const outcomes = [askFor("articles/1/price", left.signal), askFor("articles/2/price")];
  left.abort();
  await assert.rejects(outcomes[0], { name: "AbortError" });
  assert.equal((await outcomes[1]).kind, "answer");
  assert.equal(asked.filter((path) => path === "articles/1/price").length, 1);
});
