// Questions to the desk, which is behind the page's own web server at `desk/`.

import { urlBeside } from "../text/address.js";
import { say, wordsOfCode } from "../text/wording.js";

const REPLY_SECONDS = 15;
const AGAIN_SECONDS = 5;

// The desk or the web server cannot answer now; 429 comes from the web server, which was asked too often.
const DOWN = [429, 502, 503, 504];

// Those of them without a reply of the desk.
const LOST = [502, 504];

// Faults of the desk's storage that asking again does not cure, or makes worse.
const LASTING = ["memory", "size"];

// A question that any desk answers at once: about a series that does not exist.
const IS_THERE = "series/is-the-desk-there/gaps";

function urlOf(path, keys) {
  const url = urlBeside(`desk/${path}`);
  url.search = new URLSearchParams(keys);
  return url;
}

/** The JSON of a reply, or `undefined`. */
async function bodyOf(reply) {
  const text = await reply.text();
  try {
    return JSON.parse(text);
  } catch {
    return undefined;
  }
}

/** What to say while the desk is down; a `fault` if asking again would not help. */
function downOutcome(status, body) {
  const reason = wordsOfCode("down.reasons", body?.reason) ?? "";
  const words = [say(`down.${status}`), reason].join(" ").trim();
  const isLasting = status === 503 && LASTING.includes(body?.reason);
  return { kind: isLasting ? "fault" : "down", words, isOfDesk: status === 503, isLost: LOST.includes(status) };
}

// Words for refusals that say more than the desk's reason.
const REFUSALS = { "bad-query": "wrong.query", "unknown-series": "wrong.series" };

/** A reply as an answer, a refusal, a desk that is down, or something else; all but the first have `words`. */
function outcomeOf(status, body, path) {
  if (DOWN.includes(status)) return downOutcome(status, body);
  if (body?.answer === "refused") {
    const words = REFUSALS[body.reason] ?? "wrong.refused";
    return { kind: "refused", words: say(words, { reason: body.reason, name: path.split("/")[1] }) };
  }
  if (status === 200 && body?.answer !== undefined) return { kind: "answer", body };
  const words = { 401: "wrong.password", 403: "wrong.forbidden" }[status] ?? "wrong.strange";
  return { kind: "strange", words: say(words, { status }) };
}

/** Asks once. Throws `AbortError` if `signal` says that nobody waits for it any longer. */
async function askOnce(path, keys, signal) {
  const late = new AbortController();
  const stop = () => late.abort();
  const timer = setTimeout(stop, REPLY_SECONDS * 1000);
  signal.addEventListener("abort", stop);
  try {
    signal.throwIfAborted();
    const reply = await fetch(urlOf(path, keys), { cache: "no-store", signal: late.signal });
    return outcomeOf(reply.status, await bodyOf(reply), path);
  } catch (fault) {
    signal.throwIfAborted();
    if (fault.name !== "AbortError" && fault.name !== "TypeError") throw fault;
    return { kind: "down", words: say(`down.${fault.name === "TypeError" ? "unreached" : "late"}`), isLost: true };
  } finally {
    clearTimeout(timer);
    signal.removeEventListener("abort", stop);
  }
}

function pause(signal) {
  return new Promise((resolve, reject) => {
    const timer = setTimeout(resolve, AGAIN_SECONDS * 1000);
    signal.addEventListener("abort", () => {
      clearTimeout(timer);
      reject(signal.reason);
    });
  });
}

function tellDown(watch, { words }) {
  watch.down(`${words} ${say("down.again", { seconds: AGAIN_SECONDS })}`);
}

// Tasks that run one after the other.
let turn = Promise.resolve();

function inTurn(act) {
  const done = turn.then(act);
  turn = done.catch(() => {});
  return done;
}

/** Asks again what got no reply, as soon as the desk answers another question. */
async function askOnceThere(path, keys, signal, watch) {
  for (;;) {
    signal.throwIfAborted();
    const there = await askOnce(IS_THERE, {}, signal);
    if (there.kind !== "down" || there.isOfDesk) return askOnce(path, keys, signal);
    tellDown(watch, there);
    await pause(signal);
  }
}

/**
 * Asks until the desk answers or refuses, or until asking again would not help: the desk lacks memory, or a question
 * got no reply twice although the desk is there. Questions without a reply are asked again one after the other, so that
 * such a one takes no other with it. While the desk is down, `watch.down` gets the words
 * for it; `watch.up` is called when it replies.
 */
export async function ask(path, keys, signal, watch) {
  let outcome = await askOnce(path, keys, signal);
  while (outcome.kind === "down") {
    const { isLost } = outcome;
    tellDown(watch, outcome);
    await pause(signal);
    if (isLost) outcome = await inTurn(() => askOnceThere(path, keys, signal, watch));
    else outcome = await askOnce(path, keys, signal);
    if (isLost && outcome.isLost) outcome = { kind: "fault", words: say("down.lost") };
  }
  watch.up();
  return outcome;
}

/** Whether a fault means that nobody waits for the answer any longer. */
export function isAbandoned(fault) {
  return fault.name === "AbortError";
}
