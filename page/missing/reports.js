// How the series of desk.json stand, asked of the desk and the inbox once a minute while somebody sees the page.

import { ask, isAbandoned } from "../desk/questions.js";
import { element } from "../text/elements.js";
import { wholesalerOf } from "../desk/settings.js";
import { say } from "../text/wording.js";
import { loadState, reasonsOf } from "./series.js";

const MINUTE = 60_000;

const NOBODY = { down() {}, up() {} };

export class Reports {
  #listeners = [];

  /** When the last round ended; `undefined` before the first. */
  time;

  /** Fulfilled at the end of the first round. */
  ready = new Promise((resolve) => this.subscribe(resolve));

  #settings;
  #outcomes = new Map();
  #states = new Map();
  #watch = NOBODY;
  #asking = new AbortController();
  #timer;

  constructor(settings) {
    this.#settings = settings;
    document.addEventListener("visibilitychange", () => {
      if (document.visibilityState === "visible" && Date.now() - (this.time ?? Infinity) >= MINUTE) this.begin();
    });
  }

  /** Calls a function at the end of each round. */
  subscribe(listener) {
    this.#listeners.push(listener);
  }

  /** Asks at once, and then once a minute; `watch` hears when the desk goes down and up, until the view is left. */
  begin(watch = NOBODY) {
    this.#watch = watch;
    clearTimeout(this.#timer);
    this.#asking.abort();
    this.#asking = new AbortController();
    this.#round(this.#asking.signal);
  }

  /** Asks on, without telling when the desk goes down: the view that is shown does. */
  leave() {
    this.#watch.up();
    this.#watch = NOBODY;
  }

  /** The report of a series, or why there is none; `undefined` if nothing has come yet. */
  outcomeOf(name) {
    return this.#outcomes.get(name);
  }

  /** What the inbox says of a series; `undefined` if it cannot be seen. */
  stateOf(name) {
    return this.#states.get(name);
  }

  /** The desk's report on a series; `undefined` without one. */
  reportOf(name) {
    const outcome = this.#outcomes.get(name);
    return outcome?.kind === "answer" ? outcome.body : undefined;
  }

  /** Why prices of a series may be old, each reason in words. What is not known yet cannot be seen. */
  reasonsOf(name) {
    if (!this.#settings.series.some((series) => series.name === name)) return [say("missing.reasons.unwatched")];
    return reasonsOf(this.#states.get(name), this.reportOf(name), Date.now() / 1000);
  }

  /** The names of the series that somebody should look at. */
  doubtful() {
    return this.#settings.series.map(({ name }) => name).filter((name) => this.reasonsOf(name).length > 0);
  }

  /** Asks about the series one after the other: the desk answers one question at a time. */
  async #round(signal) {
    const begun = Date.now();
    const watch = { down: (words) => this.#watch.down(words), up: () => this.#watch.up() };
    try {
      for (const { name } of this.#settings.series) {
        this.#states.set(name, await loadState(name, signal));
        this.#outcomes.set(name, await ask(`series/${name}/gaps`, {}, signal, watch));
      }
    } catch (fault) {
      if (isAbandoned(fault)) return;
      throw fault;
    }
    this.time = Date.now();
    for (const listener of this.#listeners) listener();
    // A tab that nobody sees tells nothing.
    const next = () => document.visibilityState === "visible" && this.begin(this.#watch);
    this.#timer = setTimeout(next, Math.max(0, begun + MINUTE - Date.now()));
  }
}

/** Why prices of series may be old, a note for each as nodes, with a link to the details. */
export function messagesNotes(names, reports, settings) {
  return names.flatMap((name) => {
    const reasons = reports.reasonsOf(name);
    if (reasons.length === 0) return [];
    const words = say("article.doubt", { wholesaler: wholesalerOf(settings, name), reasons: reasons.join("; ") });
    return [[`${words} `, element("a", { href: "#missing" }, say("missing.view"))]];
  });
}
