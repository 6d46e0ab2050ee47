// The view of an article: the question, its answer, which is refreshed each minute, and the calendar.

import { addressOf, ASKED, readAddress } from "../text/address.js";
import { isAbandoned } from "../desk/questions.js";
import { typesIn } from "../missing/series.js";
import { keyOf } from "../desk/offers.js";
import { titlesOf } from "../desk/titles.js";
import { today } from "../text/days.js";
import { found } from "../text/elements.js";
import { readAll } from "../text/fields.js";
import { say } from "../text/wording.js";
import { Answer } from "./answer.js";
import { askCalendar, askCopies, askDay, askOtherwise } from "../desk/asking.js";
import { hideCalendar, holdsUntil, showCalendar, yearAround } from "./calendar.js";
import { Form, markAll, refuse, textsFor } from "./form.js";
import { copiesInWords } from "./words.js";

const MINUTE = 60_000;

// How often the view checks whether its answer is a minute old.
const LOOK = 5_000;

// Special net prices: of a sale, and before publication.
const SPECIAL = ["15", "17", "25", "27"];

const asText = (values) => JSON.stringify(ASKED.map((name) => values[name]));

/** The view, over the settings and the reports on messages; it tells `watch` when the desk goes down and up. */
export class Article {
  #settings;
  #reports;
  #watch;
  #form;
  #answer;
  #asking = new AbortController();
  #timer;
  #given = {};
  #texts = {};
  #answered;
  #isAsking = false;

  /** `order` gets what a buyer adds to the list. */
  constructor(settings, reports, watch, order) {
    this.#settings = settings;
    this.#reports = reports;
    this.#watch = watch;
    this.#form = new Form(settings);
    const addressWith = (changes) => addressOf("article", { ...this.#given, ...changes });
    this.#answer = new Answer({ settings, reports, addressWith });
    found("question").addEventListener("submit", (event) => this.#submit(event));
    for (const kind of ["input", "change"]) {
      found("question").addEventListener(kind, () => this.#noteOutdated());
    }
    found("as-usual").addEventListener("click", () => this.#asUsual());
    found("add-to-list").addEventListener("click", () => {
      const { isbn, quantity } = this.#answered.question;
      order.take(isbn, Number(quantity));
      found("in-list").textContent = say("article.inList");
    });
    document.addEventListener("visibilitychange", () => this.#look());
  }

  /** Shows the question in the address. */
  show(given) {
    this.leave();
    this.#given = given;
    this.#texts = textsFor(given, this.#settings);
    this.#form.fill(this.#texts);
    this.#form.focusIsbn();
    window.scrollTo(0, 0);
    if (given.isbn === undefined) this.#clear();
    else this.#ask();
    this.#timer = setInterval(() => this.#look(), LOOK);
  }

  leave() {
    clearInterval(this.#timer);
    this.#timer = undefined;
    this.#stop();
  }

  /** The title of the window, if an ISBN is asked for. */
  title() {
    const { values } = readAll({ isbn: this.#given.isbn ?? "" });
    return values.isbn === undefined ? undefined : say("article.titled", values);
  }

  /** Begins an ISBN with its first digit, which was typed elsewhere on the page. */
  beginIsbn() {
    this.#form.setIsbn("");
  }

  /** Asks for a scanned ISBN. */
  scanned(code) {
    this.#form.setIsbn(code);
    this.#submit();
  }

  /** Stops waiting for answers. */
  #stop() {
    this.#asking.abort();
    this.#isAsking = false;
    this.#watch.up();
  }

  #clear() {
    this.#answer.clear();
    hideCalendar();
    this.#answered = undefined;
    this.#noteOutdated();
  }

  /** Goes to the address of a question; if the page is there already, asks again. */
  #go(given) {
    const address = addressOf("article", given);
    if (location.hash !== address) {
      location.hash = address;
      return;
    }
    this.#answered = undefined;
    this.show(readAddress(address).given);
  }

  #submit(event) {
    event?.preventDefault();
    const { values, problems } = readAll(this.#form.asked());
    if (!markAll(problems)) {
      if (problems.isbn !== undefined) this.#form.focusIsbn();
      this.#stop();
      this.#clear();
      return;
    }
    // The address has the day only if it is not today, so that tomorrow the same address asks for tomorrow.
    const day = values.day === today() ? undefined : values.day;
    this.#go({ ...values, day });
  }

  /** Dims an answer that no longer belongs to the fields, and says so. */
  #noteOutdated() {
    const { values } = readAll(this.#form.asked());
    const isOutdated = this.#answered !== undefined && asText(values) !== this.#answered.asked;
    found("answer-part").classList.toggle("outdated", isOutdated);
    found("outdated").hidden = !isOutdated;
    if (!isOutdated) return;
    const { isbn, quantity } = this.#answered.question;
    found("outdated").textContent = say("article.outdated", { isbn, copies: copiesInWords(quantity) });
  }

  #asUsual() {
    const { isbn } = this.#given;
    if (isbn === undefined) {
      this.#form.fill(textsFor({ isbn: found("isbn").value }, this.#settings));
      this.#form.focusIsbn();
    } else this.#go({ isbn });
  }

  /** While somebody looks at it, an answer that is a minute old is refreshed. */
  #look() {
    if (this.#timer === undefined || this.#answered === undefined || this.#isAsking) return;
    const isSeen = document.visibilityState === "visible";
    if (isSeen && Date.now() - this.#answered.checked >= MINUTE) this.#askAnew();
  }

  /** Runs something that asks the desk, unless nobody waits for it any longer. */
  async #whileWanted(questions) {
    this.#asking.abort();
    const asking = new AbortController();
    this.#asking = asking;
    this.#isAsking = true;
    try {
      await questions(asking.signal);
    } catch (fault) {
      if (!isAbandoned(fault)) throw fault;
    } finally {
      if (!asking.signal.aborted) this.#isAsking = false;
      // The old questions end.
      asking.abort();
    }
  }

  /** Asks what the fields say. */
  async #ask() {
    const { values, problems } = readAll(this.#texts);
    this.#clear();
    if (!markAll(problems)) return;
    await this.#whileWanted(async (signal) => {
      await this.#askForDay(values, signal);
      if (this.#answered !== undefined) await this.#askForMore(signal);
    });
  }

  /** Shows the offers and the choice; a refusal has neither. */
  async #askForDay(question, signal) {
    this.#answer.clear(say("article.asking"));
    const day = await askDay(question, signal, this.#watch);
    if (day.refusal !== undefined) {
      this.#answer.clear();
      refuse(day.refusal);
      return;
    }
    this.#answered = { ...day, asked: asText(question), checked: Date.now() };
    this.#answer.show(this.#answered);
  }

  /** Adds to an answer: the title, and, if there are offers, the calendar, other quantities and other price types. */
  async #askForMore(signal) {
    const { question, offers } = this.#answered;
    const add = async (name, asking) => {
      const answer = await asking;
      signal.throwIfAborted();
      this.#answer.add({ [name]: answer });
    };
    const title = add("titles", titlesOf([question.isbn], signal).then((all) => all.get(question.isbn)));
    const { quantities, retailType } = this.#settings;
    const otherwise = (type) => askOtherwise(question, { type }, signal, this.#watch);
    await Promise.all(offers.length === 0 ? [title] : [
      title,
      this.#askForCalendar(question, signal),
      ...(quantities.length === 0 ? [] : [add("copies", askCopies(this.#answered, quantities, signal, this.#watch))]),
      ...(retailType === "" || retailType === question.type ? [] : [add("retail", otherwise(retailType))]),
      add("special", this.#specialOf(otherwise)),
    ]);
  }

  /** The special net prices of a book, of the types that its wholesalers lately sent. */
  async #specialOf(otherwise) {
    const { question, offers } = this.#answered;
    await this.#reports.ready;
    const named = offers.flatMap(({ series }) => typesIn(this.#reports.stateOf(series), question.currency));
    const types = SPECIAL.filter((type) => type !== question.type && named.includes(type));
    const offersOf = async (type) => (await otherwise(type)).map((offer) => ({ ...offer, type }));
    return (await Promise.all(types.map(offersOf))).flat().filter(({ amount }) => amount !== null);
  }

  /** The calendar of a year around the day, and how long each price holds. */
  async #askForCalendar(question, signal) {
    const asked = { ...question, ...yearAround(question.day) };
    const outcome = await askCalendar(asked, signal, this.#watch);
    if (outcome.kind !== "answer") {
      this.#refused(outcome);
      return;
    }
    const { offers } = outcome.body;
    this.#answer.add({ ahead: new Map(offers.map((offer) => [keyOf(offer), holdsUntil(offer, question.day)])) });
    showCalendar({ offers, question: asked, choice: this.#answered.choice }, this.#settings);
  }

  /** Says what the desk refused. After a fault of the desk the shown answer is not refreshed. */
  #refused(outcome) {
    refuse(outcome);
    if (outcome.kind === "fault") this.#answered.checked = Infinity;
  }

  /** Asks again, and says what changed. */
  #askAnew() {
    const { question, asked } = this.#answered;
    return this.#whileWanted(async (signal) => {
      const day = await askDay(question, signal, this.#watch);
      this.#answered.checked = Date.now();
      if (day.refusal !== undefined) {
        this.#refused(day.refusal);
        return;
      }
      const state = ({ offers, choice }) => JSON.stringify([offers, choice]);
      if (state(day) === state(this.#answered)) this.#answer.noteTime(day.time);
      else {
        const before = this.#answer.inWords();
        this.#answered = { ...day, titles: this.#answered.titles, asked, checked: Date.now() };
        this.#answer.show(this.#answered, before);
      }
      await this.#askForMore(signal);
    });
  }
}
