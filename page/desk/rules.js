// The shop's rules, as the desk read them at its start, for a buyer to read: the page decides nothing by them.

import { bareMoney } from "../text/amounts.js";
import { urlBeside } from "../text/address.js";
import { say, wordsOfCode } from "../text/wording.js";
import { wholesalerOf } from "./settings.js";

const isText = (value) => typeof value === "string";

/** Whether a rule has the known keys and no others, which its words would leave out. */
function isRule({ series, codes, max, ...others } = {}) {
  return Object.keys(others).length === 0 && isText(series) && Array.isArray(codes) && codes.every(isText) && (max === undefined || isText(max));
}

/** The rules of a text, in order; `undefined` if it cannot be read. */
export function readRules(text) {
  try {
    const { version, rules } = JSON.parse(text);
    return version === 1 && Array.isArray(rules) && rules.every(isRule) ? rules : undefined;
  } catch {
    return undefined;
  }
}

/** The desk's rules; `undefined` if they cannot be read. */
export async function loadRules() {
  try {
    const reply = await fetch(urlBeside("state/rules.json"), { cache: "no-store" });
    return reply.ok ? readRules(await reply.text()) : undefined;
  } catch {
    return undefined;
  }
}

/** A rule in words: whose offers, with which availability, at which greatest price. */
export function ruleInWords({ series, codes, max }, settings) {
  const wholesaler = series === "*" ? say("rules.anyone") : wholesalerOf(settings, series);
  const availabilities = codes.map((code) => wordsOfCode("availabilities", code) ?? code).join(", ");
  const words = say("rules.rule", { wholesaler, availabilities });
  // A rule's greatest amount has no currency: it counts in any.
  return max === undefined ? words : say("rules.atMost", { words, amount: bareMoney(max, settings.currency) });
}
