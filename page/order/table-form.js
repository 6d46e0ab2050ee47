// The form by which a buyer turns a table into lines: it shows the table, and asks which column has the ISBN and which
// the copies. It fills in nothing.

import { element, found } from "../text/elements.js";
import { shortened } from "../text/said.js";
import { inDigits, say, sayCount } from "../text/wording.js";
import { parse, separatorIn, taken, widthOf } from "./csv-table.js";
import { goodOf, linesOf, markedOf } from "./text.js";

// Enough rows to recognize the columns.
const SHOWN = 10;

/** The columns in order, with the first cells of each, after an empty choice. */
function fillColumns(field, rows, width) {
  const options = Array.from({ length: width }, (_, at) => {
    const cells = rows.slice(0, 2).map((row) => shortened(row.cells[at])).filter((cell) => cell !== "");
    return element("option", { value: at }, `${inDigits(at + 1)}: ${cells.join(", ")}`);
  });
  field.replaceChildren(element("option", { value: "" }, ""), ...options);
  field.value = "";
}

export class TableForm {
  #rows = [];
  #text = "";
  #take;
  #asText;

  /** `take` gets the lines of a table; `asText` gets the text, if the buyer says that it is no table. */
  constructor({ take, asText }) {
    this.#take = take;
    this.#asText = asText;
    found("separator").addEventListener("change", () => this.#show(parse(this.#text, found("separator").value)));
    for (const id of ["isbn-column", "copies-column"]) found(id).addEventListener("change", () => this.#count());
    found("table-form").addEventListener("submit", (event) => {
      event.preventDefault();
      this.#finish();
    });
    found("table-as-text").addEventListener("click", () => {
      this.#hide();
      this.#asText(this.#text);
    });
    found("table-cancel").addEventListener("click", () => {
      this.#hide();
      found("lines").focus();
    });
  }

  get isShown() {
    return !found("table-form").hidden;
  }

  /** Asks for the columns of a text. */
  ask(text) {
    this.#text = text;
    found("separator").value = separatorIn(text);
    this.#show(parse(text, found("separator").value));
    found("isbn-column").focus();
  }

  #hide() {
    found("table-form").hidden = true;
  }

  #show(rows) {
    this.#rows = rows;
    const width = widthOf(rows);
    const whole = rows.filter(({ cells }) => cells.length === width);
    const shown = whole.slice(0, SHOWN);
    for (const id of ["isbn-column", "copies-column"]) fillColumns(found(id), shown, width);
    const others = rows.length - whole.length;
    found("table-others").textContent = others > 0 ? say("order.table.others", { count: inDigits(others) }) : "";
    const heads = Array.from({ length: width }, (_, at) => {
      const box = element("input", { type: "checkbox", value: at, class: "note-column" });
      return element("th", { scope: "col" }, inDigits(at + 1), element("label", {}, box, ` ${say("order.table.note")}`));
    });
    const body = shown.map(({ cells }) => (
      element("tr", {}, ...cells.map((cell) => element("td", {}, element("bdi", {}, cell))))
    ));
    found("table-rows").replaceChildren(
      element("thead", {}, element("tr", {}, ...heads)),
      element("tbody", {}, ...body),
    );
    found("table-form").hidden = false;
    this.#count();
  }

  /** The lines of the table, by the named columns; `undefined` until both are named. */
  #taken() {
    const [isbn, copies] = ["isbn-column", "copies-column"].map((id) => found(id).value);
    if (isbn === "" || copies === "" || isbn === copies) return undefined;
    const boxes = [...document.querySelectorAll(".note-column:checked")];
    const notes = boxes.map(({ value }) => Number(value));
    return taken(this.#rows, { isbn: Number(isbn), copies: Number(copies), notes });
  }

  #count() {
    const result = this.#taken();
    const isTwice = found("isbn-column").value !== "" && found("isbn-column").value === found("copies-column").value;
    found("take-table").disabled = result === undefined;
    found("table-count").textContent = result === undefined
      ? say(isTwice ? "order.table.twice" : "order.table.choose")
      : this.#inWords(result);
  }

  #inWords({ lines, zeros, rest }) {
    const all = linesOf(lines.join("\n"));
    const copies = goodOf(all).map((line) => line.copies);
    const sum = copies.reduce((total, count) => total + count, 0);
    const [count, most] = [copies.length, Math.max(0, ...copies)].map(inDigits);
    const parts = [say("order.table.lines", { count, most, copies: inDigits(sum) })];
    const marked = markedOf(all).length;
    if (marked > 0) parts.push(sayCount("order.table.marked", marked));
    if (zeros > 0) parts.push(sayCount("order.table.zeros", zeros));
    if (rest.length > 0) parts.push(sayCount("order.table.rest", rest.length));
    return parts.join(" ");
  }

  #finish() {
    const result = this.#taken();
    if (result === undefined) return;
    this.#hide();
    this.#take(result);
    if (result.rest.length === 0) return;
    this.#text = result.rest.map(({ text }) => text).join("\n");
    this.#show(result.rest);
    found("isbn-column").focus();
  }
}
