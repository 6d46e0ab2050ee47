// The request to a wholesaler to send messages again, in the wholesaler's own numbers: with `--parts` or
// `--number-offset` of `onixdesk convert` the desk has others, and desk.json says so.

import { inWords, today } from "../text/days.js";
import { say, sayCount } from "../text/wording.js";

/** How many numbers the ranges have. */
export const allOf = (ranges) => ranges.reduce((sum, [from, until]) => sum + until - from + 1, 0);

/** Ranges in words, such as 3 to 4, 7. */
export function rangesInShort(ranges) {
  return ranges
    .map(([from, until]) => (from === until ? String(from) : say("missing.short", { from, until })))
    .join(", ");
}

/** The wholesaler's message that a number of the desk is a part of; below 1 if there is none. */
export function ofSender(number, { parts, offset }) {
  return Math.ceil(number / parts) - offset;
}

/** The wholesaler's last message whose parts are all applied; below 1 if there is none. */
export function lastOfSender(next, { parts, offset }) {
  return Math.floor((next - 1) / parts) - offset;
}

/** Ranges of the desk's numbers in the wholesaler's own, from 1 on, each once. */
export function rangesOfSender(ranges, series) {
  const found = [];
  for (const [from, until] of ranges) {
    const [first, last] = [ofSender(from, series), ofSender(until, series)];
    const before = found.at(-1);
    // Two ranges may lack parts of the same message.
    if (before !== undefined && first <= before[1]) before[1] = Math.max(before[1], last);
    else if (last >= 1) found.push([Math.max(first, 1), last]);
  }
  return found;
}

/** The text of the letter; `undefined` if no message with a number of the wholesaler is missing. */
export function requestFor({ first, next, held, missing }, series, { shop }) {
  const ranges = rangesOfSender(missing, series);
  if (ranges.length === 0) return undefined;
  const last = lastOfSender(next, series);
  const parts = [
    say("missing.request.to", { wholesaler: series.words }),
    ...(shop === "" ? [] : [say("missing.request.from", { shop })]),
    say("missing.request.date", { day: inWords(today()) }),
    "",
    say("missing.request.body", {
      ranges: rangesInShort(ranges), messages: sayCount("missing.messages", allOf(ranges)),
    }),
    "",
    next === first || last < 1 ? say("missing.request.none") : say("missing.request.applied", { last }),
    ...(held > 0 ? [say("missing.request.held")] : []),
  ];
  return `${parts.join("\n")}\n`;
}
