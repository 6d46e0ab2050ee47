// How a wholesaler's files stand, from the inbox's /state/NAME.json and the desk's report: complete, only the time of
// the last file, or a reason to stop and look. What cannot be seen is never complete.

import { urlBeside } from "../text/address.js";
import { momentInWords } from "../text/days.js";
import { inDigits, say, sayCount } from "../text/wording.js";
import { allOf, rangesInShort } from "./request.js";

// The inbox writes its file at each run; an older one says nothing about now.
const FRESH_SECONDS = 15 * 60;

const isCount = (value) => Number.isSafeInteger(value) && value >= 0;
const isTime = (value) => value === null || isCount(value);
const isFlag = (value) => typeof value === "boolean";

// What a file must have to be read.
const KEYS = {
  at: isCount, numbered: isFlag, desk: isFlag, silent: isFlag, waiting: isCount, quarantined: isCount, refused: isCount,
  heard_at: isTime, older_terms: isCount, prices: Array.isArray,
};

/** The state in a text of the inbox; `undefined` if it cannot be read. */
export function readState(text) {
  try {
    const found = JSON.parse(text);
    const isWhole = found.version === 1 && Object.entries(KEYS).every(([key, isRight]) => isRight(found[key]));
    return isWhole ? found : undefined;
  } catch {
    return undefined;
  }
}

/** The state of a series; `undefined` if its file is missing or cannot be read. */
export async function loadState(name, signal) {
  try {
    const reply = await fetch(urlBeside(`state/${name}.json`), { cache: "no-store", signal });
    return reply.ok ? readState(await reply.text()) : undefined;
  } catch {
    signal.throwIfAborted();
    return undefined;
  }
}

/**
 * Why somebody should stop and look at a series, each reason in words: by the inbox's `state` and the desk's `report`,
 * either of which may be `undefined`, at a time in seconds.
 */
export function reasonsOf(state, report, seconds) {
  const isSeen = state !== undefined && seconds - state.at <= FRESH_SECONDS;
  const found = [];
  if (!isSeen) found.push(say("missing.reasons.unseen"));
  if (report === undefined) found.push(say("missing.reasons.noReport"));
  const missing = report?.missing ?? [];
  if (missing.length > 0) {
    found.push(sayCount("missing.reasons.missing", allOf(missing), { ranges: rangesInShort(missing) }));
  }
  if (report?.held > 0) found.push(say("missing.reasons.held", { count: inDigits(report.held) }));
  if (!isSeen) return found;
  for (const key of ["quarantined", "refused", "waiting"]) {
    if (state[key] > 0) found.push(sayCount(`missing.reasons.${key}`, state[key]));
  }
  if (!state.desk) found.push(say("missing.reasons.desk"));
  if (state.silent) {
    found.push(state.heard_at === null ? say("missing.reasons.neverHeard")
      : say("missing.reasons.silent", { time: momentInWords(state.heard_at) }));
  }
  return found;
}

/** What is said of a series without such a reason: that it is complete, or when its last file came. */
export function restInWords({ numbered, heard_at: heardAt }) {
  if (numbered) return say("missing.complete");
  return heardAt === null ? say("missing.noFileYet") : say("missing.lastFile", { time: momentInWords(heardAt) });
}

/** The price types in the currency that lately came in messages of a series. */
export function typesIn(state, currency) {
  const pairs = (state?.prices ?? []).filter((pair) => Array.isArray(pair) && pair[1] === currency);
  return pairs.map(([type]) => type).filter((type) => typeof type === "string");
}

/** How many articles have prices by an older table of terms, in words; empty if none has. */
export function termsInWords(state) {
  return state?.older_terms > 0 ? say("missing.olderTerms", { count: inDigits(state.older_terms) }) : "";
}
