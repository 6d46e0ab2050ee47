// The text of an order list as a buyer writes it: every line that orders nothing is marked in place, with what it
// lacks. Ctrl+Z undoes what the page changed, like what was typed.

import { element, found } from "../text/elements.js";
import { shortened } from "../text/said.js";
import { say, sayCount } from "../text/wording.js";
import { keep, kept } from "../text/kept.js";
import { linesOf, markedOf, struck, withCopies, withOneCopy } from "./text.js";
import { areCopies, isLikeIsbn } from "./line.js";

const KEY = "onixdesk-list";

const isEmpty = ({ text }) => !isLikeIsbn(text);

/** Whether a key means undo, and no other field has anything to undo. */
function isUndo({ key, ctrlKey, metaKey, shiftKey, target }) {
  const isFree = target.id === "lines" || !target.matches("input, textarea") || target.value === "";
  return isFree && (ctrlKey || metaKey) && !shiftKey && key.toLowerCase() === "z";
}

/** How many marked lines get a button each; another button handles all others. */
const MOST_SHOWN = 50;

// How much of each is shown, enough to see what a mail says of copies.
const MOST_SIGNS = 80;

export class Editor {
  #field = found("lines");
  #changed;
  #lines = [];
  // The page's own changes: the text `before` and `after` each.
  #steps = [];

  /** Calls `changed` at each change. */
  constructor(changed) {
    this.#changed = changed;
    this.#field.value = kept(KEY);
    this.#field.addEventListener("input", () => this.#read());
    this.#field.addEventListener("scroll", () => { found("lines-marks").scrollTop = this.#field.scrollTop; });
    found("one-copy").addEventListener("click", () => this.#mend(withOneCopy(this.text)));
    found("strike-out").addEventListener("click", () => this.#strike(this.marked.filter(isEmpty)));
    this.#draw();
  }

  get text() {
    return this.#field.value;
  }

  /** The lines of the present text. */
  get lines() {
    return this.#lines;
  }

  get marked() {
    return markedOf(this.#lines);
  }

  /** Replaces the text, which Ctrl+Z undoes, and places the caret. */
  change(after, caret = this.#field.selectionStart) {
    this.#steps = [...this.#steps.slice(-50), { before: this.text, after }];
    this.#put(after, caret);
  }

  /** Undoes the page's last change, if nobody has typed since. */
  undo(event) {
    const { before, after } = this.#steps.at(-1) ?? {};
    if (!isUndo(event) || after !== this.text) return;
    event.preventDefault();
    this.#steps.pop();
    this.#put(before, this.#field.selectionStart);
  }

  #put(text, caret) {
    this.#field.value = text;
    this.#field.setSelectionRange(caret, caret);
    this.#read();
  }

  /** Selects a part of a line, or all of it. */
  goTo(line, start = 0, end = line.text.length) {
    const before = this.#lines.slice(0, line.number - 1).reduce((sum, { text }) => sum + text.length + 1, 0);
    this.#field.focus({ preventScroll: true });
    const height = Number.parseFloat(getComputedStyle(this.#field).lineHeight);
    this.#field.scrollTop = Math.max(0, (line.number - 4) * height);
    this.#field.setSelectionRange(before + start, before + end);
    this.#field.scrollIntoView({ block: "nearest" });
  }

  #read() {
    keep(KEY, this.text);
    this.#draw();
    this.#changed();
  }

  /** Changes marked lines by their controls. */
  #mend(text, number) {
    this.change(text);
    this.focusMarked(number);
  }

  /** Moves to the marked line of a number or the next one: to its copies, or a button; or else to the orders. */
  focusMarked(number = 0) {
    const at = this.marked.findIndex((line) => line.number >= number);
    const item = found("marked-lines").children[Math.max(at, 0)];
    (item?.querySelector("input") ?? item?.querySelector("button") ?? found("get-orders")).focus();
  }

  #strike(lines) {
    this.#mend(struck(this.text, lines.map(({ number }) => number)), lines[0].number);
  }

  #draw() {
    this.#lines = linesOf(this.text);
    const { marked } = this;
    this.#drawNumbers();
    const lone = marked.filter(({ reason }) => reason === "lone").length;
    const empty = marked.filter(isEmpty).length;
    found("one-copy").hidden = lone === 0;
    found("one-copy").textContent = sayCount("order.oneCopy", lone);
    found("strike-out").hidden = empty === 0;
    found("strike-out").textContent = sayCount("order.strikeOut", empty);
    found("marked").hidden = marked.length === 0;
    found("marked-heading").textContent = sayCount("order.marked", marked.length);
    const items = marked.slice(0, MOST_SHOWN).map((line) => this.#markedItem(line));
    const more = marked.length > MOST_SHOWN ? [element("li", {}, say("order.markedMore"))] : [];
    found("marked-lines").replaceChildren(...items, ...more);
  }

  /** The numbers of lines, in another colour at marked ones. */
  #drawNumbers() {
    const className = { marked: "is-marked", struck: "is-struck" };
    const rows = this.#lines.map((line) => element("span", { class: className[line.kind] }, String(line.number)));
    found("lines-marks").replaceChildren(...rows);
    found("lines").setAttribute("aria-invalid", String(this.marked.length > 0));
  }

  #markedItem(line) {
    const words = say("order.markedLine", { number: line.number, reason: say(`order.reasons.${line.reason}`) });
    const go = element("button", { type: "button", class: "link go" }, words);
    go.addEventListener("click", () => this.goTo(line));
    const strike = element("button", { type: "button", class: "small" }, say("order.strikeOne"));
    strike.setAttribute("aria-label", `${say("order.strikeOne")}: ${words}`);
    strike.addEventListener("click", () => this.#strike([line]));
    const quoted = element("q", {}, shortened(line.text.trim(), MOST_SIGNS));
    return element("li", {}, go, " ", quoted, " ", ...this.#copiesField(line), strike);
  }

  /** A field for the copies of a marked line with one ISBN, which makes it a good one. */
  #copiesField({ isbn, number }) {
    if (isbn === undefined) return [];
    const field = element("input", { inputmode: "numeric", autocomplete: "off", placeholder: say("order.columns.copies") });
    field.setAttribute("aria-label", say("order.copiesOfLine", { number }));
    field.addEventListener("change", () => {
      const copies = field.value.trim();
      if (areCopies(copies)) this.#mend(withCopies(this.text, number, copies), number);
      else field.setAttribute("aria-invalid", "true");
    });
    return [field, " "];
  }
}
