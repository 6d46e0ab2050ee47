// The view of missing messages: how each wholesaler's series stands, and a letter that asks for what is missing.

import { timeInWords } from "../text/days.js";
import { copyText } from "../text/clipboard.js";
import { element, found } from "../text/elements.js";
import { wholesalerOf } from "../desk/settings.js";
import { say } from "../text/wording.js";
import { rangesInShort, requestFor } from "./request.js";
import { restInWords, termsInWords } from "./series.js";

/** The first and the last message of a series that are in use, by its report. */
export function standsInWords({ first, next }) {
  if (next === first) return say("missing.nothingYet", { next });
  return say("missing.stands", { ranges: rangesInShort([[first, next - 1]]), next });
}

async function copy(text, series, place) {
  if (await copyText(text, place)) place.replaceChildren(say("missing.copied", { wholesaler: series.words }));
}

/** A link that opens a mail with the request in the buyer's own program. */
function mailLink(text, series) {
  if (series.mail === "") return [];
  const subject = encodeURIComponent(say("missing.request.subject"));
  const body = encodeURIComponent(text.replaceAll("\n", "\r\n"));
  const href = `mailto:${series.mail}?subject=${subject}&body=${body}`;
  return [" ", element("a", { href, class: "button" }, say("missing.mail", { mail: series.mail }))];
}

/** What is missing, by the desk's numbers, and the letter that asks for it. */
function missingPart(report, series, settings) {
  const text = requestFor(report, series, settings);
  if (text === undefined) return [element("p", {}, say("missing.noLetter"))];
  const done = element("div", { class: "copied", role: "status" });
  const button = element("button", { type: "button", class: "main" }, say("missing.copy", { wholesaler: series.words }));
  // The request has the day on which it is copied.
  button.addEventListener("click", () => copy(requestFor(report, series, settings), series, done));
  return [
    element("p", {}, say("missing.ask", { wholesaler: series.words })),
    element("p", { class: "buttons" }, button, ...mailLink(text, series)),
    done,
  ];
}

/** Why there is no report. */
const refusalInWords = ({ kind, words }) => (kind === "fault" ? `${words} ${say("missing.notAgain")}` : words);

/** The contents of a card about a series, as nodes. */
function cardParts(series, reports, settings) {
  const { name } = series;
  const [report, state, reasons] = [reports.reportOf(name), reports.stateOf(name), reports.reasonsOf(name)];
  const parts = reasons.map((words) => element("p", { class: "stop" }, words));
  if (reasons.length === 0) {
    parts.push(element("p", { class: state.numbered ? "complete" : "unnumbered" }, restInWords(state)));
  }
  if (report === undefined) parts.push(element("p", { class: "wrong" }, refusalInWords(reports.outcomeOf(name))));
  else parts.push(element("p", {}, standsInWords(report)));
  const terms = termsInWords(state);
  if (terms !== "") parts.push(element("p", {}, terms));
  if (report?.missing.length > 0) parts.push(...missingPart(report, series, settings));
  return parts;
}

/** The view, over the settings and the reports; it tells `watch` when the desk goes down and up. */
export class Missing {
  #settings;
  #reports;
  #watch;
  #shown;

  constructor(settings, reports, watch) {
    this.#settings = settings;
    this.#reports = reports;
    this.#watch = watch;
    reports.subscribe(() => this.#draw());
  }

  /** Asks at once, and tells of the desk until the view is left. */
  show() {
    const isNone = this.#settings.series.length === 0;
    if (isNone || this.#reports.time === undefined) this.#say(say(isNone ? "missing.noSeries" : "missing.asking"));
    this.#reports.begin(this.#watch);
  }

  leave() {
    this.#reports.leave();
  }

  /** Announces something in the live region, unless that has it already. */
  #say(words) {
    const place = found("missing-status");
    if (place.textContent !== words) place.textContent = words;
  }

  #draw() {
    const { series } = this.#settings;
    if (series.length === 0) return;
    found("as-of").textContent = say("missing.asOf", { time: timeInWords(this.#reports.time) });
    const names = this.#reports.doubtful();
    const wholesalers = names.map((name) => wholesalerOf(this.#settings, name)).join(", ");
    this.#say(names.length === 0 ? say("missing.allThere") : say("missing.someStop", { wholesalers }));
    // An unchanged card keeps what the buyer is doing there.
    const state = JSON.stringify(series.map(({ name }) => (
      [this.#reports.outcomeOf(name), this.#reports.reasonsOf(name), this.#reports.stateOf(name)?.heard_at]
    )));
    if (state === this.#shown) return;
    this.#shown = state;
    // Cards that somebody should look at come first.
    const ordered = [...series].sort((one, other) => names.includes(other.name) - names.includes(one.name));
    found("series").replaceChildren(...ordered.map((each) => this.#card(each, names.includes(each.name))));
  }

  #card(series, isStop) {
    const id = `series-${series.name}`;
    return element(
      "section",
      { class: isStop ? "card" : "card whole", "aria-labelledby": id },
      element("h2", { id }, series.words),
      ...cardParts(series, this.#reports, this.#settings),
    );
  }
}
