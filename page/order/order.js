// The view of an order list: its text, the desk's answers about each book, and the orders.

import { money } from "../text/amounts.js";
import { isAbandoned } from "../desk/questions.js";
import { kindOf } from "../desk/price-types.js";
import { fileOf, titlesOf } from "../desk/titles.js";
import { copyText } from "../text/clipboard.js";
import { element, found } from "../text/elements.js";
import { messagesNotes } from "../missing/reports.js";
import { wholesalerOf } from "../desk/settings.js";
import { inDigits, say, sayCount } from "../text/wording.js";
import { askedOf, changeOf, CONFIRMABLE, confirmKey, stateOf, sumsOf } from "./answers.js";
import { askAgain, askRow, eachOf } from "../desk/asking.js";
import { isTable } from "./csv-table.js";
import { isFormula } from "./csv-form.js";
import { Editor } from "./editor.js";
import { textOfFile } from "./files.js";
import { forgetSaved, hideOrders, showOrders, showRest, tellSaved } from "./orders.js";
import { Rows } from "./rows.js";
import { download, linesToPaste, printOrder } from "./saving.js";
import { TableForm } from "./table-form.js";
import { rowsOf, struckBooks, withLines, withMore, withSeries } from "./text.js";

// A list of more rows would ask the desk more than the web server lets pass at once.
const MOST_ROWS = 1000;

// How long the page waits for more typing before it asks, and gathers answers before it draws.
const PAUSE = 400;
const GATHERED = 200;

// How long an order may leave the page after all of it was asked again.
const FRESH = 120_000;

function tell(words) {
  found("list-status").textContent = words;
}

/** The view, over the settings and the reports on messages; it tells `watch` when the desk goes down and up. */
export class Order {
  #settings;
  #reports;
  #watch;
  #editor;
  #form;
  #rows;
  // The desk's answers, by book and copies, and the titles from feeds.
  #answers = new Map();
  #titles = new Map();
  // What a person has confirmed: rows, and wholesalers whose messages are missing.
  #confirmed = new Set();
  #trusted = new Set();
  // What rows ordered before the desk answered otherwise, until they are saved.
  #changes = new Map();
  #isFiltered = false;
  #isShown = false;
  #isSaving = false;
  #checkedAt = -Infinity;
  #doubtsTold = "";
  #asking = new AbortController();
  #pause;
  #drawing;

  constructor(settings, reports, watch) {
    this.#settings = settings;
    this.#reports = reports;
    this.#watch = watch;
    this.#editor = new Editor(() => this.#changed());
    this.#form = new TableForm({
      take: ({ lines }) => this.#take(lines),
      asText: (text) => this.#take(text.split("\n")),
    });
    this.#rows = new Rows({
      settings,
      titles: this.#titles,
      changes: this.#changes,
      goTo: (number) => {
        const line = this.#editor.lines[number - 1];
        this.#editor.goTo(line, line.start, line.end);
      },
      choose: (row, series) => this.#editor.change(withSeries(this.#editor.text, row, series)),
      confirm: (row, state) => this.#confirm(row, state),
      askAgain: (row) => {
        this.#answers.delete(askedOf(row));
        this.#draw();
        this.#lookUp();
      },
    });
    this.#listen();
    found("list-retail").hidden = kindOf(settings.type) !== "retail";
    reports.subscribe(() => this.#isShown && this.#draw());
  }

  #listen() {
    found("lines").addEventListener("paste", (event) => {
      if (this.#asTable(event.clipboardData?.getData("text") ?? "")) event.preventDefault();
    });
    document.addEventListener("keydown", (event) => {
      if (this.#isShown) this.#editor.undo(event);
    });
    found("open-file").addEventListener("click", () => found("list-file").click());
    found("list-file").addEventListener("change", () => this.#open(found("list-file").files[0]));
    found("get-orders").addEventListener("click", () => this.#getOrders());
    for (const id of ["show-rows", "show-needs"]) {
      found(id).addEventListener("click", () => this.#filter(id === "show-needs"));
    }
  }

  show() {
    this.#isShown = true;
    for (const [key, { refusal }] of this.#answers) if (refusal !== undefined) this.#answers.delete(key);
    this.#draw();
    this.#lookUp();
    found("lines").focus({ preventScroll: true });
  }

  /** Rows without an answer are asked once the view is shown again. */
  leave() {
    this.#isShown = false;
    clearTimeout(this.#pause);
    this.#asking.abort();
    this.#watch.up();
  }

  /** A scan is a line of its own, or one copy more. */
  scanned(code) {
    this.take(code);
    tell(say("order.scanned", { code }));
  }

  /** Puts a book on the list, with the caret on a new line behind it. */
  take(isbn, copies) {
    const text = withMore(this.#editor.text, isbn, copies);
    this.#editor.change(text, text.length);
  }

  /** If a text is a table, asks for its columns; returns whether it is one. */
  #asTable(text) {
    const lines = text.replace(/\r\n?/g, "\n");
    if (!isTable(lines)) return false;
    this.#form.ask(lines);
    return true;
  }

  async #open(file) {
    if (file === undefined) return;
    const { text, wrong } = await textOfFile(file);
    // The same file can be opened again.
    found("list-file").value = "";
    tell(wrong ?? "");
    if (wrong === undefined && !this.#asTable(text)) this.#take(text.split("\n"));
  }

  /** Adds lines behind the present ones. */
  #take(lines) {
    this.#editor.change(withLines(this.#editor.text, lines));
    this.#editor.focusMarked();
  }

  #changed() {
    this.#checkedAt = -Infinity;
    hideOrders();
    forgetSaved();
    showRest([], []);
    tell("");
    if (!this.#isShown) return;
    clearTimeout(this.#pause);
    this.#pause = setTimeout(() => this.#lookUp(), PAUSE);
    this.#drawSoon();
  }

  /** Why prices of a series may be old, in words; empty if nothing says so. */
  #doubtOf(series) {
    return this.#reports.reasonsOf(series).join("; ");
  }

  /** Whether prices of a series may be old, and nobody has confirmed that. */
  #isDoubtful(series) {
    const doubt = this.#doubtOf(series);
    return doubt !== "" && !this.#trusted.has(`${series} ${doubt}`);
  }

  /** The rows of the list, each with its `row`, `answer` and `state`, and whether a person should look at it. */
  #all() {
    const shop = { type: this.#settings.type, confirmed: this.#confirmed, changes: this.#changes };
    const doubtful = new Map();
    const isDoubtful = (series) => {
      if (!doubtful.has(series)) doubtful.set(series, this.#isDoubtful(series));
      return doubtful.get(series);
    };
    return rowsOf(this.#editor.lines).map((row) => {
      const answer = this.#answers.get(askedOf(row));
      const state = stateOf(row, answer, shop);
      const isToCheck = state.need !== undefined || (state.offer !== undefined && isDoubtful(state.offer.series));
      return { row, answer, state, isToCheck };
    });
  }

  #drawSoon() {
    this.#drawing ??= setTimeout(() => {
      this.#drawing = undefined;
      if (this.#isShown) this.#draw();
    }, GATHERED);
  }

  #draw() {
    const all = this.#all();
    const toCheck = all.filter(({ isToCheck }) => isToCheck);
    if (toCheck.length === 0) this.#isFiltered = false;
    const isWhole = this.#rows.draw(this.#isFiltered ? toCheck : all, this.#reports.doubtful());
    if (!isWhole) this.#drawSoon();
    found("list-part").hidden = all.length === 0;
    found("show-rows").textContent = say("order.all", { count: inDigits(all.length) });
    found("show-needs").textContent = say("order.toCheck", { count: inDigits(toCheck.length) });
    found("show-rows").setAttribute("aria-pressed", String(!this.#isFiltered));
    found("show-needs").setAttribute("aria-pressed", String(this.#isFiltered));
    found("show-needs").disabled = toCheck.length === 0;
    this.#drawDoubts(all);
    this.#drawBar(all, toCheck.filter(({ state }) => state.offer !== undefined).length);
  }

  #filter(isFiltered) {
    this.#isFiltered = isFiltered;
    this.#draw();
  }

  /** What is missing of each wholesaler in the order, to be confirmed once. */
  #drawDoubts(all) {
    const names = [...new Set(all.flatMap(({ state: { offer } }) => offer?.series ?? []))];
    const doubtful = names.filter((name) => this.#isDoubtful(name));
    const told = doubtful.map((name) => `${name} ${this.#doubtOf(name)}`).join("\n");
    // Redrawn elements lose the focus.
    if (told === this.#doubtsTold) return;
    this.#doubtsTold = told;
    const notes = doubtful.map((name) => {
      const wholesaler = wholesalerOf(this.#settings, name);
      const words = say("order.confirmWholesaler", { wholesaler });
      const button = element("button", { type: "button", class: "small confirm" }, words);
      button.addEventListener("click", () => {
        this.#trusted.add(`${name} ${this.#doubtOf(name)}`);
        this.#goOn();
      });
      return element("p", { class: "note" }, ...messagesNotes([name], this.#reports, this.#settings).flat(), " ", button);
    });
    found("list-doubts").replaceChildren(...notes);
  }

  /** The bar that stays: books, sum, how many to check or in no order, and progress. */
  #drawBar(all, toCheck) {
    const ordered = all.filter(({ state }) => state.offer !== undefined);
    const waiting = all.filter(({ answer }) => answer === undefined).length;
    const rest = all.length - ordered.length - waiting;
    const { books, amount } = sumsOf(ordered).all;
    const parts = [
      sayCount("order.books", books),
      ...(books > 0 ? [money(amount, this.#settings.currency)] : []),
      ...(toCheck > 0 ? [sayCount("order.checkBar", toCheck)] : []),
      ...(rest > 0 ? [say("order.restBar", { count: inDigits(rest) })] : []),
      ...(this.#editor.marked.length > 0 ? [sayCount("order.markedBar", this.#editor.marked.length)] : []),
      ...(waiting > 0 ? [sayCount("order.waitingBar", waiting)] : []),
    ];
    found("list-bar-words").replaceChildren(...parts.flatMap((part) => [" · ", element("span", {}, part)]).slice(1));
  }

  #confirm(row, { need, offer }) {
    this.#confirmed.add(confirmKey(need, row, offer));
    this.#goOn();
  }

  /** Moves from a confirmed need to the next one; after the last, nothing more is announced. */
  #goOn() {
    this.#draw();
    const next = this.#nextToCheck();
    if (next === found("get-orders")) tell("");
    next.focus({ preventScroll: true });
  }

  /** The next need to confirm, or else the button of the orders. */
  #nextToCheck() {
    return document.querySelector("#list-doubts .confirm, #list .confirm") ?? found("get-orders");
  }

  /** Runs something that asks the desk; earlier questions end. */
  async #ask(act) {
    this.#asking.abort();
    this.#asking = new AbortController();
    const { signal } = this.#asking;
    this.#watch.up();
    try {
      await act({ settings: this.#settings, signal, watch: this.#watch });
      return true;
    } catch (fault) {
      if (!isAbandoned(fault)) throw fault;
      return false;
    }
  }

  /** Asks for rows without an answer, and then for titles: an order does not wait for those. */
  #lookUp() {
    const rows = rowsOf(this.#editor.lines);
    if (rows.length > MOST_ROWS) {
      tell(say("order.tooMany", { most: inDigits(MOST_ROWS) }));
      return undefined;
    }
    return this.#ask(async (desk) => {
      const open = rows.filter((row) => !this.#answers.has(askedOf(row)));
      await eachOf(open, async (row) => {
        this.#answers.set(askedOf(row), await askRow(row, desk));
        this.#drawSoon();
      });
      await this.#askTitles(rows, desk.signal);
    });
  }

  async #askTitles(rows, signal) {
    const isbns = rows.map(({ isbn }) => isbn).filter((isbn) => !this.#titles.has(isbn));
    const files = new Set(isbns.map(fileOf));
    await eachOf([...files], async (file) => {
      const found = await titlesOf(isbns.filter((isbn) => fileOf(isbn) === file), signal);
      for (const [isbn, titles] of found) this.#titles.set(isbn, titles);
      this.#drawSoon();
    });
  }

  /** Why no order can leave the page yet, and where to go; `undefined` if nothing prevents it. */
  #obstacle(all) {
    if (this.#form.isShown) return { words: say("order.blocked.table"), place: found("isbn-column") };
    if (this.#editor.marked.length > 0) {
      return { words: say("order.blocked.marked"), place: document.querySelector("#marked-lines button") };
    }
    if (all.length > MOST_ROWS) return { words: say("order.tooMany", { most: inDigits(MOST_ROWS) }) };
    if (all.some(({ answer }) => answer === undefined)) return { words: say("order.blocked.waiting") };
    const open = all.filter(({ state }) => CONFIRMABLE.includes(state.need));
    const doubts = document.querySelectorAll("#list-doubts .confirm").length;
    if (open.length + doubts > 0) {
      this.#filter(true);
      return { words: say("order.blocked.check"), place: this.#nextToCheck() };
    }
    if (all.every(({ state }) => state.offer === undefined)) return { words: say("order.blocked.nothing") };
    return undefined;
  }

  /** The rows that may leave the page now, asked once more; none if something prevents it. */
  async #checked() {
    const all = this.#all();
    const obstacle = this.#obstacle(all);
    if (obstacle !== undefined) {
      tell(obstacle.words);
      obstacle.place?.focus();
      return [];
    }
    const rows = all.filter(({ state }) => state.offer !== undefined);
    if (Date.now() - this.#checkedAt < FRESH) return rows;
    const { text } = this.#editor;
    const { changed, refusal, isDone } = await this.#askAgain(rows);
    if (!isDone || text !== this.#editor.text) return [];
    if (changed === 0 && refusal === undefined) {
      this.#checkedAt = Date.now();
      return rows;
    }
    hideOrders();
    this.#filter(changed > 0);
    tell(refusal === undefined ? say("order.changed", { count: changed, all: rows.length }) : say("order.unchecked", { words: refusal.words }));
    return [];
  }

  /**
   * Asks for rows once more: how many answers changed, which are asked anew; a `refusal` that came instead of an
   * answer; and whether all was asked.
   */
  async #askAgain(rows) {
    let [changed, done] = [0, 0];
    let refusal;
    const isDone = await this.#ask((desk) => eachOf(rows, async ({ row, state }) => {
      const now = await askAgain(row, state, desk);
      refusal ??= now.refusal;
      if (now.isSame === false) {
        this.#answers.set(askedOf(row), await askRow(row, desk));
        this.#changes.set(changeOf(row), state.offer);
        changed += 1;
      }
      done += 1;
      tell(say("order.checking", { done, all: rows.length }));
    }));
    return { changed, refusal, isDone };
  }

  /** Saves, unless something is being saved already. */
  async #saving(act) {
    if (this.#isSaving) return;
    this.#isSaving = true;
    try {
      await act();
    } finally {
      this.#isSaving = false;
    }
  }

  /** Asks for each book once more, and shows the orders if nothing has changed. */
  #getOrders() {
    return this.#saving(async () => {
      const rows = await this.#checked();
      if (rows.length === 0) return;
      this.#showRest();
      showOrders(rows, { settings: this.#settings, save: (way, series) => this.#save(way, series) });
      tell(say("order.ready"));
      found("orders-heading").focus();
      found("orders").scrollIntoView({ block: "nearest" });
    });
  }

  #showRest() {
    const rest = this.#all().filter(({ state }) => state.offer === undefined);
    showRest(rest, struckBooks(this.#editor.lines));
  }

  #save(way, series) {
    return this.#saving(async () => {
      const order = found("order-reference").value.trim();
      if (isFormula(order)) {
        tell(say("order.blocked.reference"));
        found("order-reference").focus();
        return;
      }
      const rows = (await this.#checked()).filter(({ state }) => state.offer.series === series);
      if (rows.length === 0) return;
      const words = await this.#letGo(way, series, rows, { settings: this.#settings, order });
      this.#showRest();
      tellSaved(series, words);
    });
  }

  async #letGo(way, series, rows, context) {
    const books = sayCount("order.books", rows.length);
    if (way === "csv") return say("order.saved", { file: download(rows, series, context), books });
    if (way === "print") printOrder(rows, series, context);
    else if (!(await copyText(linesToPaste(rows), found("saved")))) return say("order.copyByHand");
    return say(way === "print" ? "order.printed" : "order.copied", { books });
  }
}
